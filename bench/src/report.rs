//! The table of all calls.

use crate::cases::{self, Case};
use crate::library::Library;
use crate::table::{columns, goal, largest, line, noise, of_earlier, ratio, time};
use crate::timing::{self, Timed};
use crate::{agree, Builds};

/// A case and the times of its candidates.
struct Row {
    name: String,
    proved: Timed,
    tuned: Timed,
    by_term: Timed,
    search: Timed,
    search_fills: Timed,
    earlier: Option<Timed>,
}

impl Row {
    /// Measures a case.
    fn new(builds: &Builds, case: &Case) -> Row {
        let mut all = builds.candidates(case);
        agree(case, &mut all);
        let (times, earlier) = timing::compare_named(&mut all);
        let [by_term, search, search_fills, proved, tuned] = times;
        let name = case.name().join(" | ");
        Row { name, proved, tuned, by_term, search, search_fills, earlier }
    }

    /// Prints the row.
    fn print(&self, earlier: bool) {
        let Row { proved, tuned, by_term, search, search_fills, .. } = self;
        let mut cells = [proved, search_fills, search, tuned, by_term].map(time).to_vec();
        cells.push(ratio(proved.over(tuned)));
        cells.extend([search_fills, search, by_term].map(|other| ratio(other.over(proved))));
        if earlier {
            cells.extend(of_earlier(self.earlier.as_ref(), |own| proved.over(own)));
        }
        line(&self.name, &cells);
    }
}

/// What stands over the rows.
const HEAD: &str = "\
- (a) the proved library
- (b) the reference program's search, with the workspace; (b') its answer alone, no workspace filled;
  of a status (b) the letter that is kept, (b') the letter by search
- (c) the library's table tuned by hand
- (d) one table a term";

/// The words of the table.
const WORDS: &str = "
One line a case. A time is that of one call, the best of several turns in which the candidates
alternate; a ratio is the middle one of those of each round. \\* slow, so few turns were made.

Policies as people write them: two and three signatures (apart over two and three roles); four eyes,
plus (some users prepare, others approve, each as often as needed); 01's F; a licensee's of 21 words
(clerk, pricing, a manager or two accountants, and lawyers, all apart, with notes by others). Policies
made to measure: \"mostly together\" and \"mostly apart\" are balanced trees of that operator over
`plus role` and one role, in which every fifth operator is an either; of 3 words, two roles joined.

Actions: how many are judged, those taken before among them. Users: how many users act, in turn. An
action is the last of them, and is asked for with the others taken. An outsider is a user without any
role, whose action is turned away after the others' eleven. A grant goes to an instance with eleven
actions, and judges none. Nor does a status.
";

/// Prints what stands over the rows.
fn head(earlier: Option<&Library>) {
    println!("{HEAD}");
    if let Some(earlier) = earlier {
        println!("- (e) an earlier build of the library, version {}", earlier.version());
    }
    println!("{WORDS}");
    let times = "(a) | (b) | (b') | (c) | (d) | a/c | b/a | b'/a | d/a";
    columns("actions", times, earlier.map(|_| "a/e"));
}

/// Prints what stands below the rows.
fn foot(rows: &[Row]) {
    let count = |which: &dyn Fn(&Row) -> bool| rows.iter().filter(|row| which(row)).count();
    let over_tuned = |row: &Row| row.proved.over(&row.tuned);
    println!();
    println!("Largest a/c: {}.", largest(rows.iter().map(|row| (&row.name[..], over_tuned(row)))));
    goal(rows.iter().map(|row| (&row.proved, &row.tuned)));
    let slower = count(&|row| row.search_fills.over(&row.proved) < 1.0);
    println!("Rows in which (a) is slower than (b): {slower}.");
    let slower = count(&|row| row.search.over(&row.proved) < 1.0);
    println!("Rows in which (a) is slower than (b'): {slower}.");
    noise(rows.iter().map(|row| &row.proved));
}

/// Prints the table.
pub fn print(builds: &Builds) {
    head(builds.earlier.as_ref());
    let mut rows = Vec::new();
    for case in cases::calls() {
        let row = Row::new(builds, &case);
        row.print(builds.earlier.is_some());
        rows.push(row);
    }
    foot(&rows);
}
