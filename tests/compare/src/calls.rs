//! Each exported call against the reference: its answer, and all that it may write.

mod enabled;
mod events;
mod left;
mod multisets;
mod normal_forms;
mod openings;
mod spread_forms;
mod texts;

use oskhrein::raw::{Calls, Monitor};
use reference::casefile::Case;

use crate::faults::{Faults, Policy};
use crate::lent::LentByte;
use crate::library;
use crate::report::{Group, Report, Seen};

/// Every so many turns a whole run is compared. It has no divisor in common with the number of kinds
/// of random files, so that each kind has its turn.
const RUN_EVERY: usize = 7;

/// One exported call: what was compared, and which answers occurred.
pub struct Call {
    group: Group,
    seen: Seen,
}

impl Call {
    /// A call whose answers are these; each must occur.
    fn new(name: &str, answers: &'static [u8]) -> Call {
        Call { group: Group::new(name), seen: Seen::new(name, answers) }
    }

    /// Counts a comparison and the product's answer.
    fn check(&mut self, answer: u8, same: bool, describe: impl FnOnce() -> String) {
        self.seen.count(answer);
        self.group.check(same, describe);
    }
}

/// A call that reads a policy, and is lent a byte for the place of a fault (02, E2).
pub struct Reader {
    call: Call,
    faults: Faults,
    asked: usize,
}

impl Reader {
    /// A call whose answers are these; each must occur, and each kind of fault.
    fn new(name: &str, answers: &'static [u8]) -> Reader {
        Reader { call: Call::new(name, answers), faults: Faults::new(name, true), asked: 0 }
    }

    /// The byte for the next call.
    fn lent_byte(&mut self) -> LentByte {
        self.asked += 1;
        LentByte::new(self.asked)
    }

    /// Counts a comparison, the product's answer and the policy.
    fn check(&mut self, policy: Policy, answer: u8, same: bool, describe: impl FnOnce() -> String) {
        self.faults.count(policy, answer.into());
        self.call.check(answer, same, describe);
    }
}

/// An answer of the reference as the exported calls give it: a letter by its byte, or a number.
fn byte<T: Into<u8>>(answer: Result<T, u32>) -> u8 {
    match answer {
        Ok(letter) => letter.into(),
        Err(code) => code as u8,
    }
}

/// The monitor of a case, opened by the product.
fn opened(library: &Calls, case: &Case) -> Monitor {
    let Case { users, roles, policy, user_roles, .. } = case;
    let (permissions, workflow) = case.given();
    let mut monitor = Monitor::BLANK;
    library.open(&mut monitor, *users, *roles, policy, user_roles, permissions, workflow, &mut 0);
    monitor
}

/// Compares each call on its edges and on so many random inputs.
pub fn compare(seed: u64, count: usize) -> Result<Report, String> {
    let library = library::chosen()?;
    let (mut calls, mut kinds) = (Vec::new(), Vec::new());
    let (opened, refused) = openings::compare(&library, seed, count);
    let (tested, sizes) = multisets::compare(&library, seed, count);
    let written = normal_forms::compare(&library, seed, count);
    let (texts, back, tried_texts) = texts::compare(&library, seed, count);
    for Reader { call, faults, .. } in [opened, tested, written].into_iter().chain(texts) {
        calls.push(call);
        kinds.push(faults.seen());
    }
    kinds.extend([refused, sizes]);
    kinds.extend(tried_texts);
    let (events, tried) = events::compare(&library, seed, count);
    calls.extend(events);
    kinds.extend(tried);
    let (enabled, masks) = enabled::compare(&library, seed, count);
    calls.push(enabled);
    kinds.extend(masks);
    let mut report = Report::default();
    for call in calls {
        report.groups.push(call.group);
        report.seen.push(call.seen);
    }
    report.groups.push(back);
    report.seen.extend(kinds);
    let (spread, tried_forms) = spread_forms::compare(&library, seed, count);
    report.groups.extend(spread);
    report.seen.extend(tried_forms);
    Ok(report)
}
