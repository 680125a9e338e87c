//! Permissions and workflows, beside the same calls without them.

use crate::candidates::Proved;
use crate::cases::{self, Case};
use crate::table::{columns, largest, line, noise, of_earlier, ratio, time};
use crate::timing::{self, Timed};
use crate::{agree, Builds};

/// What stands over the rows.
const HEAD: &str = "
Permissions and a workflow of 64 transitions in 16 states, in its last state; the transition that an
action takes is the last one.

- (a) the call
- bare: the same call without permissions and workflow
- (b) search, with the workspace; (b') its answer alone
- (c) the call tuned by hand
- (e) an earlier build's call, where there is one; its bare call if it has no workflows

Refused 16 and 17: an action that no role gives, and one that no transition has; bare, it is judged.
Few are permitted: the role that gives the action is held by three of 16 users.
";

/// The goal for an event where so many actions are taken: at most so many times the bare one.
const GOAL: (usize, f64) = (8, 1.1);

/// A case and the times of its candidates.
struct Row {
    name: String,
    counts: bool,
    bare: Timed,
    search: Timed,
    search_fills: Timed,
    proved: Timed,
    tuned: Timed,
    earlier: Option<Timed>,
}

impl Row {
    /// Measures a case.
    fn new(builds: &Builds, case: &Case) -> Row {
        let bare = case.bare();
        let mut all = builds.candidates(case);
        agree(case, &mut all);
        // One table a term has no column here, and an earlier build without workflows is timed bare.
        all.drain(..1);
        if all.len() == 4 {
            all.extend(builds.main_candidates(&bare).drain(2..));
        }
        all.insert(0, Box::new(Proved::new(&bare, &builds.linked)));
        let (times, earlier) = timing::compare_named(&mut all);
        let [bare, search, search_fills, proved, tuned] = times;
        let counts = case.what == "event: action" && case.taken.len() >= GOAL.0;
        let name = case.name().join(" | ");
        Row { name, counts, bare, search, search_fills, proved, tuned, earlier }
    }

    /// How many bare calls the call takes.
    fn over_bare(&self) -> f64 {
        self.proved.over(&self.bare)
    }

    /// Prints the row.
    fn print(&self, earlier: bool) {
        let Row { bare, search, search_fills, proved, tuned, .. } = self;
        let mut cells = [proved, bare, search_fills, search, tuned].map(time).to_vec();
        cells.extend([bare, tuned].map(|other| ratio(proved.over(other))));
        cells.extend([search_fills, search].map(|other| ratio(other.over(proved))));
        if earlier {
            cells.extend(of_earlier(self.earlier.as_ref(), |own| proved.over(own)));
        }
        line(&self.name, &cells);
    }
}

/// Prints what stands below the rows.
fn foot(rows: &[Row]) {
    let (taken, most) = GOAL;
    let counted: Vec<&Row> = rows.iter().filter(|row| row.counts).collect();
    let worst = largest(counted.iter().map(|row| (&row.name[..], row.over_bare())));
    println!();
    println!("Largest a/bare of an action with {taken} or more taken: {worst}.");
    let above = counted.iter().filter(|row| row.over_bare() > most).count();
    println!("Rows of these above {most}: {above} of {}.", counted.len());
    noise(rows.iter().map(|row| &row.proved));
}

/// Prints the table.
pub fn print(builds: &Builds) {
    println!("{HEAD}");
    let earlier = builds.earlier.is_some();
    let times = "(a) | bare | (b) | (b') | (c) | a/bare | a/c | b/a | b'/a";
    columns("actions", times, earlier.then_some("a/e"));
    let mut rows = Vec::new();
    for case in cases::ordered() {
        let row = Row::new(builds, &case);
        row.print(earlier);
        rows.push(row);
    }
    foot(&rows);
}

#[cfg(test)]
mod tests {
    use super::*;
    use crate::candidates::{Candidate, Searched};
    use crate::cases::Job;

    #[test]
    fn rows_are_answered_as_their_names_say() {
        for case in cases::ordered() {
            let mut searched = Searched::new(&case, true);
            let number = searched.run();
            let few = searched.users().count_ones();
            let fits = match (&case.what[..], &case.job) {
                ("event: refused 16", _) => number == 16,
                ("event: refused 17", _) => number == 17,
                ("enabled: few are permitted", Job::Enabled(_)) => number == 0 && few <= 4,
                ("enabled: nobody is permitted", _) => number == 0 && few == 0,
                ("event: action", _) => number == 0 || number == 9,
                _ => number == 0,
            };
            assert!(fits, "{}: {number}, {few} users", case.name().join(", "));
        }
    }
}
