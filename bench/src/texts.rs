//! Policies as text: reading and writing, beside the reference program's and a hand-written reader and
//! writer of the same grammar.

use crate::candidates::{Candidate, Searched};
use crate::cases::{self, Case, Job};
use crate::library::Library;
use crate::table::{columns, goal, largest, line, noise, of_earlier, ratio, time};
use crate::timing::{self, Timed};
use crate::{agree, Builds};

/// What stands over the rows.
const HEAD: &str = "
Policies as text, with 16 users and 8 roles. Bytes: those of the text.

- (a) the call
- (b) the reference program
- (c) the call tuned by hand: one pass, no recursion, eight bytes at a time
- (e) where there is an earlier build that has the call, its call

Sets of 16 users, apart, have the longest text of all policies. Refused 20: that text without its first
byte. Refused 21: that text with another last byte; and the opening bytes with nothing but `(` behind
them. Refused 1: a text of 254 words.
";

/// A case and the times of its candidates.
struct Row {
    name: String,
    writes: bool,
    search: Timed,
    proved: Timed,
    tuned: Timed,
    earlier: Option<Timed>,
}

impl Row {
    /// Measures a case.
    fn new(builds: &Builds, case: &Case) -> Row {
        let mut all: Vec<Box<dyn Candidate>> = vec![Box::new(Searched::new(case, false))];
        all.extend(builds.main_candidates(case));
        agree(case, &mut all);
        let ([search, proved, tuned], earlier) = timing::compare_named(&mut all);
        let (name, writes) = (case.name().join(" | "), matches!(case.job, Job::Write));
        Row { name, writes, search, proved, tuned, earlier }
    }

    /// How often the call takes the time of tuned code.
    fn over_tuned(&self) -> f64 {
        self.proved.over(&self.tuned)
    }

    /// Prints the row.
    fn print(&self, earlier: bool) {
        let Row { search, proved, tuned, .. } = self;
        let mut cells = [proved, search, tuned].map(time).to_vec();
        cells.extend([self.over_tuned(), search.over(proved)].map(ratio));
        if earlier {
            cells.extend(of_earlier(self.earlier.as_ref(), |own| proved.over(own)));
        }
        line(&self.name, &cells);
    }
}

/// Prints what stands below the rows.
fn foot(rows: &[Row]) {
    let (writes, reads): (Vec<&Row>, Vec<&Row>) = rows.iter().partition(|row| row.writes);
    let worst = |rows: &[&Row]| largest(rows.iter().map(|row| (&row.name[..], row.over_tuned())));
    println!();
    println!("Largest a/c of reading: {}.", worst(&reads));
    println!("Largest a/c of writing: {}.", worst(&writes));
    goal(rows.iter().map(|row| (&row.proved, &row.tuned)));
    let slower = rows.iter().filter(|row| row.search.over(&row.proved) < 1.0).count();
    println!("Rows in which (a) is slower than (b): {slower} of {}.", rows.len());
    noise(rows.iter().map(|row| &row.proved));
}

/// Prints the table. An earlier build without the calls has no column.
pub fn print(builds: &Builds) {
    println!("{HEAD}");
    let earlier = builds.earlier.as_ref().is_some_and(Library::has_texts);
    columns("bytes", "(a) | (b) | (c) | a/c | b/a", earlier.then_some("a/e"));
    let mut rows = Vec::new();
    for case in cases::texts() {
        let row = Row::new(builds, &case);
        row.print(earlier);
        rows.push(row);
    }
    foot(&rows);
}

#[cfg(test)]
mod tests {
    use super::*;

    #[test]
    fn rows_are_answered_as_their_names_say() {
        for case in cases::texts() {
            let number = Searched::new(&case, false).run();
            let told = case.what.split_once(": refused ").map_or("0", |(_, number)| number);
            assert_eq!(number.to_string(), told, "{}", case.name().join(", "));
        }
    }

    #[test]
    fn the_longest_text_and_the_longest_of_all_have_their_rows() {
        let most = |what: &str| {
            let rows = cases::texts().into_iter().filter(|case| case.what == what);
            rows.map(|case| case.actions).max()
        };
        let longest = ["read", "write", "read: refused 21"].map(most);
        assert_eq!(longest, [Some(767), Some(767), Some(1024)]);
    }
}
