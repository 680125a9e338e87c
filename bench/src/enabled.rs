//! Who may act, beside one event and beside a trial for each user.

use crate::candidates::{Candidate, Proved};
use crate::cases::{self, Case};
use crate::table::{columns, largest, line, noise, of_earlier, ratio, time};
use crate::timing::{self, Timed};
use crate::{agree, Builds};

/// What stands over the rows.
const HEAD: &str = "
Who may act, of 16 users.

- (a) the call
- event: one event, an action by the last user on the same monitor
- trials: each user's action by an event on a copy
- (b) search: each user's action tried, the last one's with the workspace; (b') no workspace filled
- (c) the call tuned by hand

Kinds: how many kinds of users there are. Each user who has acted is one; the others are of one kind
if the same would be noted for them. Outsider last: 16 kinds, and the last user holds no role, so that
the event is turned away. Taken: how many actions. Users: how many users made them, in turn.
";

/// The goal where users are of few kinds: at most so many, and at most so many events.
const FEW_KINDS: (usize, f64) = (4, 5.0);
/// The goal however the users differ: at most so many events.
const ALL_KINDS: f64 = 16.0;

/// A case and the times of its candidates.
struct Row {
    name: String,
    kinds: usize,
    event: Timed,
    trials: Timed,
    search: Timed,
    search_fills: Timed,
    proved: Timed,
    tuned: Timed,
    earlier: Option<Timed>,
}

impl Row {
    /// Measures a case.
    fn new(builds: &Builds, case: &Case) -> Row {
        let action = case.last_action();
        let mut all = builds.candidates(case);
        agree(case, &mut all);
        let event: Box<dyn Candidate> = Box::new(Proved::new(&action, &builds.linked));
        all.insert(0, event);
        let (times, earlier) = timing::compare_named(&mut all);
        let [event, trials, search, search_fills, proved, tuned] = times;
        let (name, kinds) = (case.name().join(" | "), case.kinds());
        Row { name, kinds, event, trials, search, search_fills, proved, tuned, earlier }
    }

    /// How many events the call takes.
    fn events(&self) -> f64 {
        self.proved.over(&self.event)
    }

    /// Prints the row. An earlier build that lacks the call has no time.
    fn print(&self, earlier: bool) {
        let Row { event, trials, search, search_fills, proved, tuned, .. } = self;
        let mut cells = [proved, event, trials, search_fills, search, tuned].map(time).to_vec();
        cells.push(format!("{:.2}", self.events()));
        cells.extend([proved.over(trials), proved.over(tuned)].map(ratio));
        cells.extend([search_fills.over(proved), search.over(proved)].map(ratio));
        if earlier {
            cells.extend(of_earlier(self.earlier.as_ref(), |own| proved.over(own)));
        }
        line(&self.name, &cells);
    }
}

/// The largest number among some rows, and the name of its row.
fn largest_of<'a>(rows: impl Iterator<Item = &'a Row>, number: fn(&Row) -> f64) -> String {
    largest(rows.map(|row| (&row.name[..], number(row))))
}

/// Prints what stands below the rows.
fn foot(rows: &[Row]) {
    let (most, goal) = FEW_KINDS;
    let few = || rows.iter().filter(|row| row.kinds <= most);
    let many = || rows.iter().filter(|row| row.kinds > most);
    println!();
    println!("Largest a/event, at most {most} kinds: {}.", largest_of(few(), Row::events));
    let above = few().filter(|row| row.events() > goal).count();
    println!("Rows of these above {goal}: {above} of {}.", few().count());
    println!("Largest a/event, more kinds: {}.", largest_of(many(), Row::events));
    let above = many().filter(|row| row.events() > ALL_KINDS).count();
    println!("Rows of these above {ALL_KINDS}: {above} of {}.", many().count());
    let of_trials = |row: &Row| row.proved.over(&row.trials);
    println!("Largest a/trials: {}.", largest_of(rows.iter(), of_trials));
    let over_tuned = |row: &Row| row.proved.over(&row.tuned);
    println!("Largest a/c: {}.", largest_of(rows.iter(), over_tuned));
    let slower = rows.iter().filter(|row| row.search_fills.over(&row.proved) < 1.0).count();
    println!("Rows in which (a) is slower than (b): {slower} of {}.", rows.len());
    noise(rows.iter().map(|row| &row.proved));
}

/// Prints the table.
pub fn print(builds: &Builds) {
    let earlier = builds.earlier.is_some();
    println!("{HEAD}");
    let times = "(a) | event | trials | (b) | (b') | (c) | a/event | a/trials | a/c | b/a | b'/a";
    columns("taken", times, earlier.then_some("a/e"));
    let mut rows = Vec::new();
    for case in cases::enabled() {
        let row = Row::new(builds, &case);
        row.print(earlier);
        rows.push(row);
    }
    foot(&rows);
}
