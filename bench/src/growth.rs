//! How the cost of an action grows with actions, words and users, and what an earlier build took.

use crate::candidates::{Candidate, Proved};
use crate::cases::{made, Case, ACTING, APART, TOGETHER};
use crate::table::ratio;
use crate::timing::{self, Timed};
use crate::{agree, Builds};

/// One number varies along a series; each of its points is measured for two kinds of action.
struct Series<'a> {
    builds: &'a Builds,
    varies: &'a str,
    values: &'a [usize],
    kinds: [&'a str; 2],
}

impl Series<'_> {
    /// The names of the times of one kind.
    fn names(&self, kind: &str) -> String {
        let earlier = if self.builds.earlier.is_some() { " (e) |" } else { "" };
        format!(" {kind}, µs: (a) | (c) |{earlier}")
    }

    /// Measures all points in turn, and prints them. Answers how often the last point's cost by the
    /// proved library holds that of the point so many before it, for both kinds.
    fn print(&self, back: usize, case: impl Fn(usize, usize) -> Case) -> String {
        let points = self.values.iter().flat_map(|value| [(*value, 0), (*value, 1)]);
        let cases: Vec<Case> = points.map(|(value, kind)| case(value, kind)).collect();
        let mut all: Vec<Box<dyn Candidate>> = Vec::new();
        for case in &cases {
            let mut own = self.builds.main_candidates(case);
            agree(case, &mut own);
            all.append(&mut own);
        }
        let width = all.len() / self.values.len();
        let times = timing::compare(&mut all);
        let [first, second] = self.kinds.map(|kind| self.names(kind));
        println!();
        println!("| {} |{first}{second}", self.varies);
        println!("|{}", "---|".repeat(1 + width));
        let lines: Vec<&[Timed]> = times.chunks_exact(width).collect();
        for (value, line) in self.values.iter().zip(&lines) {
            let cells: Vec<String> =
                line.iter().map(|timed| format!("{:.2}", timed.best() / 1e3)).collect();
            println!("| {value} | {} |", cells.join(" | "));
        }
        let (last, before) = (lines[lines.len() - 1], lines[lines.len() - 1 - back]);
        let grown = |place: usize| last[place].over(&before[place]);
        format!("{:.2} and {:.2} times", grown(0), grown(width / 2))
    }
}

/// An action under a policy made to measure.
fn action(operator: u32, words: usize, actions: usize, acting: usize) -> Case {
    Case::new("event: action", made(operator, words), actions, acting)
}

/// Prints the three series.
pub fn print(builds: &Builds) {
    println!();
    println!("How the cost of an action grows, under policies made to measure.");
    let kinds = ["together", "apart"];
    let operators = [TOGETHER, APART];
    let values: Vec<usize> = (1..=12).collect();
    let varies = "actions, 10 words";
    let series = Series { builds, varies, values: &values, kinds };
    let grown = series.print(1, |n, kind| action(operators[kind], 10, n, ACTING));
    println!();
    println!("From 11 actions to 12: {grown}. The ways to part the sets grow 3 times.");
    let kinds = ["1 action, apart", "12 actions, apart"];
    let series = Series { builds, varies: "words", values: &[4, 10, 16, 22, 31], kinds };
    let grown = series.print(4, |words, kind| action(APART, words, [1, 12][kind], ACTING));
    println!();
    println!("From 4 words to 31: {grown}. One walk over the parts serves all words.");
    let varies = "users who act, 31 words, 12 actions";
    let kinds = ["together", "apart"];
    let series = Series { builds, varies, values: &[1, 2, 4, 8, 12], kinds };
    let grown = series.print(4, |acting, kind| action(operators[kind], 31, 12, acting));
    println!();
    println!("From 1 user to 12: {grown}. Alike actions are exchanged.");
    goals(builds);
}

/// Prints what part of an earlier build's time is taken where walks can be saved, and where not.
fn goals(builds: &Builds) {
    let Some(earlier) = &builds.earlier else {
        return;
    };
    let points = [
        ("12 actions by one user, 31 words", 31, 1, 0.10),
        ("12 actions by two users, 31 words", 31, 2, 0.25),
        ("12 actions by four users, 31 words", 31, 4, 0.60),
        ("12 actions by seven users, two roles joined, 3 words", 3, ACTING, 0.10),
        ("12 actions by twelve users, 31 words", 31, 12, 1.05),
    ];
    let cases = points.map(|(_, words, acting, _)| {
        [TOGETHER, APART].map(|operator| action(operator, words, 12, acting))
    });
    let mut all: Vec<Box<dyn Candidate>> = Vec::new();
    for case in cases.iter().flatten() {
        let mut own: Vec<Box<dyn Candidate>> =
            vec![Box::new(Proved::new(case, &builds.linked)), Box::new(Proved::new(case, earlier))];
        agree(case, &mut own);
        all.append(&mut own);
    }
    let times = timing::compare(&mut all);
    println!();
    println!("The library's time by that of the earlier build, a/e.");
    println!();
    println!("| action | together | apart | goal: at most |");
    println!("|---|---|---|---|");
    for ((name, _, _, most), line) in points.iter().zip(times.chunks_exact(4)) {
        let [together, apart] = [0, 2].map(|place| ratio(line[place].over(&line[place + 1])));
        println!("| {name} | {together} | {apart} | {most:.2} |");
    }
}
