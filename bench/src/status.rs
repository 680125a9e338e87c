//! Status and close, which go by the letter that a monitor keeps, beside the test of 15 alone.

use crate::candidates::{Candidate, Proved, Searched};
use crate::cases::{self, Case, Job};
use crate::table::{columns, largest, line, noise, of_earlier, ratio, time};
use crate::timing::{self, Timed};
use crate::{agree, Builds};

/// What stands over the rows.
const HEAD: &str = "
Status and close, with 16 users and 16 roles; workflow: with permissions and 64 transitions in 16
states, in the last one, which is final.

- (a) the call
- 15: the test of 15 alone on the same monitor, by an event word of kind 4 that is out of layout, which
  is answered 7; beside a close it has a copy of the monitor made first, as the close has
- (b) the reference program, by the letter too; (b') by the letter that search finds
- (c) the call tuned by hand
- (e) where there is an earlier build, its call; before 0.6.0 it judges the actions
";

/// The goal for a status: at most so many times the test of 15.
const GOAL: f64 = 1.0;

/// A case and the times of its candidates.
struct Row {
    name: String,
    counts: bool,
    test: Timed,
    kept: Timed,
    search: Timed,
    proved: Timed,
    tuned: Timed,
    earlier: Option<Timed>,
}

impl Row {
    /// Measures a case.
    fn new(builds: &Builds, case: &Case) -> Row {
        let tested = case.tested();
        let mut all: Vec<Box<dyn Candidate>> =
            vec![Box::new(Searched::new(case, true)), Box::new(Searched::new(case, false))];
        all.extend(builds.main_candidates(case));
        agree(case, &mut all);
        all.insert(0, Box::new(Proved::new(&tested, &builds.linked)));
        let ([test, kept, search, proved, tuned], earlier) = timing::compare_named(&mut all);
        let (name, counts) = (case.name().join(" | "), matches!(case.job, Job::Status));
        Row { name, counts, test, kept, search, proved, tuned, earlier }
    }

    /// How many tests of 15 the call takes.
    fn over_test(&self) -> f64 {
        self.proved.over(&self.test)
    }

    /// Prints the row.
    fn print(&self, earlier: bool) {
        let Row { test, kept, search, proved, tuned, .. } = self;
        let mut cells = [proved, test, kept, search, tuned].map(time).to_vec();
        cells.extend([test, tuned].map(|other| ratio(proved.over(other))));
        cells.extend([kept, search].map(|other| ratio(other.over(proved))));
        if earlier {
            cells.extend(of_earlier(self.earlier.as_ref(), |own| own.over(proved)));
        }
        line(&self.name, &cells);
    }
}

/// Prints the row of these that takes the most tests of 15.
fn print_worst(call: &str, rows: &[&Row]) {
    let worst = largest(rows.iter().map(|row| (&row.name[..], row.over_test())));
    println!("Largest a/15 of a {call}: {worst}.");
}

/// Prints what stands below the rows.
fn foot(rows: &[Row]) {
    let (statuses, closes): (Vec<&Row>, Vec<&Row>) = rows.iter().partition(|row| row.counts);
    println!();
    print_worst("status", &statuses);
    let above = statuses.iter().filter(|row| row.over_test() > GOAL).count();
    println!("Rows of these above {GOAL}: {above} of {}.", statuses.len());
    print_worst("close", &closes);
    noise(rows.iter().map(|row| &row.proved));
}

/// Prints the table.
pub fn print(builds: &Builds) {
    println!("{HEAD}");
    let earlier = builds.earlier.is_some();
    let times = "(a) | 15 | (b) | (b') | (c) | a/15 | a/c | b/a | b'/a";
    columns("actions", times, earlier.then_some("e/a"));
    let mut rows = Vec::new();
    for case in cases::by_status() {
        let row = Row::new(builds, &case);
        row.print(earlier);
        rows.push(row);
    }
    foot(&rows);
}

#[cfg(test)]
mod tests {
    use super::*;

    #[test]
    fn rows_are_answered_as_their_names_say_and_their_tests_7() {
        for case in cases::by_status() {
            let answer = Searched::new(&case, true).run();
            let what = case.what.trim_end_matches(", workflow");
            let fits = match what {
                "status" => [b'o', b'c'].contains(&answer),
                _ => what == format!("close: {answer}"),
            };
            assert!(fits, "{}: {answer}", case.name().join(", "));
            assert_eq!(Searched::new(&case.tested(), true).run(), 7, "{}", case.what);
        }
    }
}
