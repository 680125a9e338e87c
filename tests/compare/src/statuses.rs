//! What was tried of the status that a monitor keeps (02, E6): how the events of a run leave its
//! letter, words of kind 4 and of others with workspaces of every length, and which letters were asked
//! for.

use reference::casefile::Case;
use reference::code::Code;
use reference::event::{is_of_close_kind, read_event, Event};
use reference::examples::CLOSE;
use reference::monitor::{Monitor, Taken};
use reference::raw::RawInstance;
use reference::workspace::WORDS;

use crate::report::Seen;

/// An event of a run, with the monitor before and behind it.
struct Step<'a> {
    before: &'a Monitor<Taken>,
    after: &'a Monitor<Taken>,
    event: Result<Event, Code>,
    code: Code,
}

/// A kind of step: its name, and whether a step is of it.
type StepKind = (&'static str, fn(&Step) -> bool);

/// All kinds; each must occur.
const STEPS: [StepKind; 24] = [
    ("o to o", |step| step.acts("oo")),
    ("o to c", |step| step.acts("oc")),
    ("c to c", |step| step.acts("cc")),
    ("c to o", |step| step.acts("co")),
    ("c to d", |step| step.closes(0)),
    ("o behind a grant, c by today's roles", |step| step.grants() && step.differs('o')),
    ("c behind a grant, o by today's roles", |step| step.grants() && step.differs('c')),
    ("o behind a revocation, c by today's roles", |step| step.revokes() && step.differs('o')),
    ("c behind a revocation, o by today's roles", |step| step.revokes() && step.differs('c')),
    ("closed, but not by today's roles", |step| step.closes(0) && step.was_not_today('c')),
    ("11, but not by today's roles", |step| step.closes(11) && step.was_not_today('o')),
    ("o behind 7", |step| step.refused('o', 7)),
    ("o behind 8", |step| step.refused('o', 8)),
    ("o behind 9", |step| step.refused('o', 9)),
    ("o behind 11", |step| step.refused('o', 11)),
    ("o behind 16", |step| step.refused('o', 16)),
    ("o behind 17", |step| step.refused('o', 17)),
    ("c behind 7", |step| step.refused('c', 7)),
    ("c behind 8", |step| step.refused('c', 8)),
    ("c behind 9", |step| step.refused('c', 9)),
    ("c behind 11", |step| step.refused('c', 11)),
    ("c behind 16", |step| step.refused('c', 16)),
    ("c behind 17", |step| step.refused('c', 17)),
    ("d behind 10", |step| step.refused('d', 10)),
];

impl Step<'_> {
    /// Whether it is an action that was taken, with these letters before and behind it.
    fn acts(&self, letters: &str) -> bool {
        let both = [self.before.status(), self.after.status()];
        let is_action = matches!(self.event, Ok(Event::Action { .. }));
        is_action && self.code == 0 && letters.chars().eq(both)
    }

    /// Whether it is a close with this answer.
    fn closes(&self, code: Code) -> bool {
        self.event == Ok(Event::Close) && self.code == code
    }

    fn grants(&self) -> bool {
        matches!(self.event, Ok(Event::Grant { .. })) && self.code == 0
    }

    fn revokes(&self) -> bool {
        matches!(self.event, Ok(Event::Revoke { .. })) && self.code == 0
    }

    /// Whether this letter is kept, and today's roles say another since this event.
    fn differs(&self, letter: char) -> bool {
        self.after.status() == letter
            && self.after.by_todays_roles() != letter
            && self.before.by_todays_roles() == letter
    }

    /// Whether this letter was kept, and today's roles said another.
    fn was_not_today(&self, letter: char) -> bool {
        self.before.status() == letter && self.before.by_todays_roles() != letter
    }

    /// Whether it was refused with this number, with this letter before and behind it.
    fn refused(&self, letter: char, code: Code) -> bool {
        self.code == code && self.after.status() == letter
    }
}

/// The kinds of steps that occurred.
#[derive(Clone, Debug)]
pub struct Steps {
    seen: Seen,
}

impl Steps {
    /// None yet; where all are wanted, each must occur.
    pub fn new(name: &str, all_wanted: bool) -> Steps {
        let wanted = STEPS.iter().filter(|_| all_wanted).map(|(name, _)| *name);
        Steps { seen: Seen::kinds(&format!("letters along runs in {name}"), wanted) }
    }

    /// Counts the events of a run.
    pub fn count(&mut self, case: &Case) {
        let Ok(mut monitor) = case.open::<Taken>() else {
            return;
        };
        for word in &case.events {
            let before = monitor.clone();
            let code = monitor.step(*word).code;
            let event = read_event(case.users.into(), case.roles.into(), *word);
            let step = Step { before: &before, after: &monitor, event, code };
            for (name, _) in STEPS.iter().filter(|(_, holds)| holds(&step)) {
                self.seen.count_kind(name);
            }
        }
    }

    /// What occurred.
    pub fn seen(self) -> Seen {
        self.seen
    }
}

/// A word sent to an instance with a workspace of so many words, and its answer.
struct Sent<'a> {
    raw: &'a RawInstance,
    word: u32,
    workspace: usize,
    code: u8,
}

/// A kind of word that was sent: its name, the answer, and whether one is of it.
type SentKind = (&'static str, u8, fn(&Sent) -> bool);

/// All kinds; each must occur.
const SENT: [SentKind; 38] = [
    ("0 for a close, no workspace", 0, |sent| sent.is_close() && sent.workspace == 0),
    ("0 for a close, 8191 words", 0, |sent| sent.is_close() && sent.workspace == WORDS - 1),
    ("0 for a close, 8192 words", 0, |sent| sent.is_close() && sent.workspace == WORDS),
    ("0 for a close, more words", 0, |sent| sent.is_close() && sent.workspace > WORDS),
    ("0 for a close, not satisfied", 0, |sent| sent.is_close() && sent.defined() == 'o'),
    ("0 for a close in a final state", 0, |sent| sent.is_close() && sent.raw.states != 0),
    ("11, no workspace", 11, |sent| sent.workspace == 0),
    ("11, 8191 words", 11, |sent| sent.workspace == WORDS - 1),
    ("11, 8192 words", 11, |sent| sent.workspace == WORDS),
    ("11, more words", 11, |sent| sent.workspace > WORDS),
    ("11 for o, satisfied", 11, |sent| sent.raw.letter == b'o' && sent.defined() == 'c'),
    ("11 for o, satisfied, in a final state", 11, |sent| {
        sent.raw.letter == b'o' && sent.defined() == 'c' && sent.is_final()
    }),
    ("11 for c, for the state", 11, |sent| sent.raw.letter == b'c' && sent.defined() == 'c'),
    ("11 for c, not satisfied, for the state", 11, |sent| {
        sent.raw.letter == b'c' && sent.defined() == 'o'
    }),
    ("10 for a close, no workspace", 10, |sent| sent.is_close() && sent.workspace == 0),
    ("10 for a close, 8191 words", 10, |sent| sent.is_close() && sent.workspace == WORDS - 1),
    ("10 for kind 4 out of layout, no workspace", 10, |sent| {
        sent.is_close_out_of_layout() && sent.workspace == 0
    }),
    ("7 for kind 4, no workspace", 7, |sent| sent.is_of_close_kind() && sent.workspace == 0),
    ("7 for kind 4, 8191 words", 7, |sent| sent.is_of_close_kind() && sent.workspace == WORDS - 1),
    ("7 for kind 4, 8192 words", 7, |sent| sent.is_of_close_kind() && sent.workspace == WORDS),
    ("15 for a close, no workspace", 15, |sent| sent.is_close() && sent.workspace == 0),
    ("15 for a close, 8191 words", 15, |sent| sent.is_close() && sent.workspace == WORDS - 1),
    ("15 for kind 4 out of layout, no workspace", 15, |sent| {
        sent.is_close_out_of_layout() && sent.workspace == 0
    }),
    ("0 for an action, another letter before", 0, |sent| sent.is_mislettered(1)),
    ("0 for a grant, another letter", 0, |sent| sent.is_mislettered(2)),
    ("0 for a revocation, another letter", 0, |sent| sent.is_mislettered(3)),
    ("9, another letter", 9, |sent| sent.is_mislettered(1)),
    ("12 for an action", 12, |sent| sent.kind() == 1),
    ("12 for a grant", 12, |sent| sent.kind() == 2),
    ("12 for a revocation", 12, |sent| sent.kind() == 3),
    ("12 for kind 0", 12, |sent| sent.kind() == 0),
    ("12 for kind 5", 12, |sent| sent.kind() == 5),
    ("12 for a kind with the bit of 4", 12, |sent| sent.kind() > 7 && sent.kind() & 4 != 0),
    ("12 for kind 255", 12, |sent| sent.kind() == 255),
    ("12 for 8191 words", 12, |sent| sent.workspace == WORDS - 1),
    ("12 for no workspace", 12, |sent| sent.workspace == 0),
    ("12 where 10 would follow", 12, |sent| sent.raw.status() == Ok('d')),
    ("12 where 15 would follow", 12, |sent| sent.raw.status().is_err()),
];

impl Sent<'_> {
    fn kind(&self) -> u32 {
        self.word >> 24
    }

    fn is_close(&self) -> bool {
        self.word == CLOSE
    }

    fn is_of_close_kind(&self) -> bool {
        is_of_close_kind(self.word)
    }

    fn is_close_out_of_layout(&self) -> bool {
        self.is_of_close_kind() && !self.is_close()
    }

    /// Whether it is of this kind, sent to an instance with another letter than 01 defines for it.
    fn is_mislettered(&self, kind: u32) -> bool {
        self.kind() == kind && !is_defined(self.raw)
    }

    /// The letter that 01 defines for the instance.
    fn defined(&self) -> char {
        char::from(self.raw.with_defined_letter().letter)
    }

    /// Whether the workflow that is given is in a final state.
    fn is_final(&self) -> bool {
        self.raw.states != 0 && self.raw.final_states >> self.raw.state & 1 == 1
    }
}

/// A kind of letter that was answered: its name, the letter, and whether an instance with it is of it.
type LetterKind = (&'static str, u8, fn(&RawInstance) -> bool);

/// All kinds; each must occur.
const LETTERS: [LetterKind; 9] = [
    ("o with no action", b'o', |raw| raw.count == 0),
    ("o, not satisfied", b'o', |raw| raw.count > 0 && is_defined(raw)),
    ("o, but satisfied", b'o', |raw| !is_defined(raw)),
    ("c, satisfied", b'c', is_defined),
    ("c, but not satisfied", b'c', |raw| !is_defined(raw)),
    ("d with mark 1", b'd', |raw| raw.closed == 1),
    ("d with another mark", b'd', |raw| raw.closed > 1),
    ("d with no action", b'd', |raw| raw.count == 0),
    ("d, but not satisfied", b'd', |raw| !is_satisfied(raw)),
];

/// Whether the letter is the one that 01 defines.
fn is_defined(raw: &RawInstance) -> bool {
    raw.with_defined_letter() == *raw
}

/// Whether the taken actions satisfy the policy, closed or not.
fn is_satisfied(raw: &RawInstance) -> bool {
    let open = RawInstance { closed: 0, ..*raw };
    open.with_defined_letter().letter == b'c'
}

/// The kinds of words and letters that occurred in calls on raw instances.
#[derive(Clone, Debug)]
pub struct Calls {
    sent: Seen,
    letters: Seen,
}

impl Calls {
    /// None yet; each must occur.
    pub fn new() -> Calls {
        let sent = SENT.iter().map(|(name, _, _)| *name);
        let letters = LETTERS.iter().map(|(name, _, _)| *name);
        Calls {
            sent: Seen::kinds("words and workspaces in event", sent),
            letters: Seen::kinds("letters in status", letters),
        }
    }

    /// Counts a word that was sent to an instance with a workspace of so many words, by its answer.
    pub fn count_event(&mut self, raw: &RawInstance, word: u32, workspace: usize, code: u8) {
        let sent = Sent { raw, word, workspace, code };
        for (name, answer, holds) in SENT {
            if answer == sent.code && holds(&sent) {
                self.sent.count_kind(name);
            }
        }
    }

    /// Counts the answer to a status.
    pub fn count_status(&mut self, raw: &RawInstance, answer: u8) {
        for (name, letter, holds) in LETTERS {
            if letter == answer && holds(raw) {
                self.letters.count_kind(name);
            }
        }
    }

    /// What occurred.
    pub fn seen(self) -> [Seen; 2] {
        [self.sent, self.letters]
    }
}

#[cfg(test)]
mod tests {
    use super::*;
    use crate::report::Report;
    use reference::generate::calls::{event_edges, marked};
    use reference::generate::{edges, Random};

    /// Asserts that everything wanted was counted.
    fn are_whole(seen: Vec<Seen>) {
        let report = Report { groups: vec![], seen };
        assert!(report.passed(), "{report}");
    }

    #[test]
    fn runs_have_every_kind_of_step() {
        let mut steps = Steps::new("edges", true);
        let runs = edges::statuses::runs().into_iter().chain(edges::secure::runs());
        runs.for_each(|(_, case)| steps.count(&case));
        are_whole(vec![steps.seen()]);
    }

    #[test]
    fn edges_have_every_kind_of_word_and_letter() {
        let mut calls = Calls::new();
        for (_, input) in event_edges(&mut Random::new(6)) {
            let raw = input.instance;
            let mut after = raw;
            let code = after.event(input.word, &mut marked(input.workspace)) as u8;
            calls.count_event(&raw, input.word, input.workspace, code);
            raw.status().iter().for_each(|letter| calls.count_status(&raw, *letter as u8));
        }
        are_whole(calls.seen().into());
    }
}
