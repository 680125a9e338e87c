//! Compares the product with the reference program, a separate reading of the papers:
//!
//! - `judge SEED COUNT`: the judge program on COUNT case files, first the edges of what 01 and 02 allow,
//!   then random ones; fewer files than there are edges leave some number out, which is a failure;
//! - `fuzz SEED ROUNDS`: the judge program on random and damaged bytes, ROUNDS of each kind;
//! - `calls SEED COUNT`: each exported call on its edges and on COUNT random inputs, and the forms of
//!   one policy with each other.
//!
//! The judge is `target/bin/judge`, or what `JUDGE` names. The calls are those of the static
//! library that was linked, or of the shared library that `EMBED` names. A case file on which the
//! judge differs is kept in `target/differences`, or where `DIFFERENCES` says. The last line counts
//! groups of checks: `N passed, M failed`.

mod calls;
mod faults;
mod fuzz;
mod judge;
mod leavers;
mod lent;
mod library;
mod refusals;
mod report;
mod secure;
mod spread;
mod statuses;
mod texts;

use std::process::ExitCode;

use report::Report;

/// What the program can do.
const USAGE: &str = "usage: compare judge SEED COUNT
       compare fuzz SEED ROUNDS
       compare calls SEED COUNT";

fn main() -> ExitCode {
    let arguments: Vec<String> = std::env::args().skip(1).collect();
    match run(&arguments) {
        Ok(report) => {
            print!("{report}");
            ExitCode::from(u8::from(!report.passed()))
        }
        Err(message) => {
            eprintln!("{message}");
            ExitCode::from(2)
        }
    }
}

/// Runs one comparison.
fn run(arguments: &[String]) -> Result<Report, String> {
    let [what, seed, count] = arguments else {
        return Err(USAGE.to_string());
    };
    let seed: u64 = seed.parse().map_err(|_| format!("{seed} is no seed"))?;
    let count: usize = count.parse().map_err(|_| format!("{count} is no count"))?;
    match what.as_str() {
        "judge" => judge::compare(seed, count),
        "fuzz" => fuzz::compare(seed, count),
        "calls" => calls::compare(seed, count),
        _ => Err(USAGE.to_string()),
    }
}
