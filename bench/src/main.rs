//! Times the proved library beside three other programs on the same inputs, in one run:
//!
//! - (a) the proved library; if `EARLIER` names a shared library, also (e), an earlier build of it;
//! - (b) the reference program's search, once as it answers alone and once with the workspace;
//! - (c) the library's table tuned by hand;
//! - (d) one table a term.
//!
//! Who may act has a table of its own, where one event and a trial for each user stand beside it, and
//! so have refused policies, permissions and workflows, where the same without them stands beside,
//! status and close, beside the test of a monitor alone, and texts.
//!
//! Before a case is timed, all of them must agree on the answer, the monitor and the place of a
//! policy's fault, those that fill the workspace on every word of it, and on texts on all that is
//! written. Times are for reading; nothing passes or fails by them.
//!
//! `bench enabled` prints the table of who may act alone, `bench refused` that of refused policies,
//! `bench workflow` that of permissions and workflows, `bench status` that of status and close,
//! `bench texts` that of texts. `bench rows` lists the rows of all tables, `bench time ROW..` times some of them without (b) and
//! (d), and `bench repeat ROW CANDIDATE RUNS` does one of them so often, for a program that counts
//! instructions.

mod candidates;
mod cases;
mod enabled;
mod growth;
mod library;
mod refused;
mod report;
mod status;
mod table;
mod texts;
mod timing;
mod tuned;
mod workflow;

use std::process::ExitCode;

use candidates::{Candidate, Proved, Searched, Tried, Tuned};
use cases::{Case, Job};
use library::Library;

/// What the program can do.
const USAGE: &str = "usage: bench
       bench enabled
       bench refused
       bench workflow
       bench status
       bench texts
       bench rows
       bench time ROW..
       bench repeat ROW CANDIDATE RUNS";

/// The builds of the library that are timed.
struct Builds {
    linked: Library,
    earlier: Option<Library>,
}

impl Builds {
    fn new() -> Result<Builds, String> {
        let earlier = std::env::var("EARLIER").ok().filter(|path| !path.is_empty());
        let earlier = earlier.map(|path| Library::loaded(&path)).transpose()?;
        Ok(Builds { linked: Library::linked()?, earlier })
    }

    /// The library in a case, tuned code beside it, and the earlier build, if there is one that has
    /// the call.
    fn main_candidates<'a>(&'a self, case: &'a Case) -> Vec<Box<dyn Candidate + 'a>> {
        let mut all: Vec<Box<dyn Candidate + 'a>> = vec![
            Box::new(Proved::new(case, &self.linked)),
            Box::new(Tuned::new(case, tuned::rows::fill)),
        ];
        let has = |own: &&Library| match case.job {
            _ if case.order.is_some() && !own.has_workflows() => false,
            Job::Enabled(_) => own.tells_enabled(),
            Job::Read(_) | Job::Write => own.has_texts(),
            _ => true,
        };
        if let Some(earlier) = self.earlier.as_ref().filter(has) {
            all.push(Box::new(Proved::new(case, earlier)));
        }
        all
    }

    /// The simple way to do a case.
    fn simple<'a>(&'a self, case: &'a Case) -> Box<dyn Candidate + 'a> {
        match case.job {
            Job::Enabled(action) => Box::new(Tried::new(case, action, &self.linked)),
            _ => Box::new(Tuned::new(case, tuned::by_term::fill)),
        }
    }

    /// All candidates of a case.
    fn candidates<'a>(&'a self, case: &'a Case) -> Vec<Box<dyn Candidate + 'a>> {
        let mut all: Vec<Box<dyn Candidate + 'a>> = vec![
            self.simple(case),
            Box::new(Searched::new(case, false)),
            Box::new(Searched::new(case, true)),
        ];
        all.extend(self.main_candidates(case));
        all
    }
}

/// Stops unless all candidates of a case leave the same.
fn agree(case: &Case, all: &mut [Box<dyn Candidate + '_>]) {
    let answers: Vec<u8> = all.iter_mut().map(|candidate| candidate.run()).collect();
    let name = case.name().join(", ");
    assert!(answers.iter().all(|answer| *answer == answers[0]), "{name}: answers {answers:?}");
    let (monitor, users) = (all[0].monitor(), all[0].users());
    let places: Vec<u8> = all.iter().filter_map(|candidate| candidate.place()).collect();
    let words: Vec<&[u32]> = all.iter().filter_map(|candidate| candidate.words()).collect();
    let texts: Vec<_> = all.iter().filter_map(|candidate| candidate.converted()).collect();
    assert!(all.iter().all(|candidate| candidate.monitor() == monitor), "{name}: monitors");
    assert!(words.iter().all(|own| *own == words[0]), "{name}: workspaces");
    assert!(texts.iter().all(|own| *own == texts[0]), "{name}: texts");
    assert!(all.iter().all(|candidate| candidate.users() == users), "{name}: users");
    assert!(places.iter().all(|place| *place == places[0]), "{name}: places {places:?}");
}

/// Prints all tables and how the cost grows.
fn print(builds: &Builds) {
    timing::warm_up(&mut builds.candidates(&cases::calls()[0]));
    report::print(builds);
    growth::print(builds);
    enabled::print(builds);
    refused::print(builds);
    workflow::print(builds);
    status::print(builds);
    texts::print(builds);
}

/// Prints one table alone.
fn print_alone(builds: &Builds, table: fn(&Builds)) {
    timing::warm_up(&mut builds.main_candidates(&cases::calls()[0]));
    table(builds);
}

/// A number from the command line.
fn number(text: &str) -> Result<usize, String> {
    text.parse().map_err(|_| format!("{text} is no number"))
}

/// The case of a row.
fn case(row: &str) -> Result<Case, String> {
    cases::all().get(number(row)?).cloned().ok_or(format!("there is no row {row}"))
}

/// Does one row with one candidate so often.
fn repeat(builds: &Builds, row: &str, candidate: &str, runs: &str) -> Result<(), String> {
    let (case, runs) = (case(row)?, number(runs)?);
    let place = ["library", "tuned", "earlier"].iter().position(|name| *name == candidate);
    let mut all = builds.main_candidates(&case);
    let chosen = place.and_then(|place| all.get_mut(place));
    let chosen = chosen.ok_or(format!("there is no {candidate}"))?;
    for _ in 0..runs {
        std::hint::black_box(chosen.run());
    }
    Ok(())
}

/// Prints the best times of the library, tuned code and the earlier build in one row.
fn time(builds: &Builds, row: &str) -> Result<(), String> {
    let case = case(row)?;
    let mut all = builds.main_candidates(&case);
    agree(&case, &mut all);
    timing::warm_up(&mut all);
    let times = timing::compare(&mut all);
    let times: Vec<String> = times.iter().map(|timed| format!("{:.0} ns", timed.best())).collect();
    println!("{} | {}", case.name().join(" | "), times.join(" | "));
    Ok(())
}

/// What the command line asks for.
fn run(arguments: &[&str]) -> Result<(), String> {
    match arguments {
        [] => print(&Builds::new()?),
        ["enabled"] => print_alone(&Builds::new()?, enabled::print),
        ["refused"] => print_alone(&Builds::new()?, refused::print),
        ["workflow"] => print_alone(&Builds::new()?, workflow::print),
        ["status"] => print_alone(&Builds::new()?, status::print),
        ["texts"] => print_alone(&Builds::new()?, texts::print),
        ["rows"] => {
            for (row, case) in cases::all().iter().enumerate() {
                println!("{row} | {}", case.name().join(" | "));
            }
        }
        ["time", rows @ ..] => {
            let builds = Builds::new()?;
            rows.iter().try_for_each(|row| time(&builds, row))?;
        }
        ["repeat", row, candidate, runs] => repeat(&Builds::new()?, row, candidate, runs)?,
        _ => return Err(USAGE.to_string()),
    }
    Ok(())
}

fn main() -> ExitCode {
    let arguments: Vec<String> = std::env::args().skip(1).collect();
    let arguments: Vec<&str> = arguments.iter().map(String::as_str).collect();
    match run(&arguments) {
        Ok(()) => ExitCode::SUCCESS,
        Err(message) => {
            eprintln!("{message}");
            ExitCode::FAILURE
        }
    }
}

#[cfg(test)]
mod tests {
    use super::*;

    #[test]
    fn library_and_tuned_code_agree_in_every_row() {
        let builds = Builds { linked: Library::linked().expect("a library"), earlier: None };
        for case in cases::all() {
            agree(&case, &mut builds.main_candidates(&case));
        }
    }
}
