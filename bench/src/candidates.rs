//! The programs that are compared. Each keeps its input in its own form and does one whole job a
//! run.

use oskhrein::{Refusal, MAX_WORDS};
use reference::monitor::Kept;
use reference::multiset;
use reference::place::place_of;
use reference::raw::{RawAction, RawInstance};
use reference::search::Search;
use reference::text;

use crate::cases::{numbered, Case, Job};
use crate::library::{Library, Stored};
use crate::tuned::workflow::{Transition, Workflow};
use crate::tuned::{self, Action, Configuration, Fill, Instance, Monitor};

/// The place where there is none: no policy has so many words.
pub const NO_PLACE: u8 = u8::MAX;

/// A program with the input of one case.
pub trait Candidate {
    /// Does the job once, from the same start each time, and answers its byte.
    fn run(&mut self) -> u8;

    /// The monitor that the last run left, field by field as the hand-tuned program keeps it.
    fn monitor(&self) -> Monitor;

    /// The workspace or output that the last run left, if the program fills it.
    fn words(&self) -> Option<&[u32]>;

    /// The users that the last run named, bit u for user u, if it was asked who may act.
    fn users(&self) -> u16 {
        0
    }

    /// The place of a policy's fault that the last run told, or [`NO_PLACE`], if the program tells
    /// places.
    fn place(&self) -> Option<u8> {
        Some(NO_PLACE)
    }

    /// What reading or writing a text left, if the program does that.
    fn converted(&self) -> Option<&Converted> {
        None
    }
}

/// What reading or writing a text leaves: how many words or bytes were written last, and the output for
/// bytes. That for words is in the workspace.
#[derive(Debug, PartialEq, Eq)]
pub struct Converted {
    written: usize,
    bytes: [u8; 1024],
}

impl Converted {
    /// Nothing was written.
    fn new() -> Converted {
        Converted { written: 0, bytes: [0; 1024] }
    }

    /// Keeps how many were written, and answers 0.
    fn note(&mut self, written: usize) -> u8 {
        self.written = written;
        0
    }
}

/// A workspace. All begin at a page, since where they begin is not what is compared.
#[repr(C, align(4096))]
struct Workspace([u32; tuned::WORDS]);

impl Workspace {
    fn new() -> Box<Workspace> {
        Box::new(Workspace([0; tuned::WORDS]))
    }
}

/// How many words of a workspace or output a job leaves.
fn words_left(case: &Case) -> usize {
    match case.job {
        Job::NormalForm => case.policy.words.len(),
        Job::Open => 0,
        _ => tuned::WORDS,
    }
}

/// The byte of an answer.
fn byte<T>(answer: Result<T, Refusal>, accepted: impl FnOnce(T) -> u8) -> u8 {
    answer.map_or_else(Refusal::number, accepted)
}

/// The same of a call that reads a policy, and the place of the policy's fault.
fn policy_byte<T>(
    answer: Result<T, Refusal>,
    place: &mut u8,
    accepted: impl FnOnce(T) -> u8,
) -> u8 {
    if let Some(fault) = answer.as_ref().err().and_then(|refusal| refusal.place()) {
        *place = fault as u8;
    }
    byte(answer, accepted)
}

/// The byte of a verdict.
fn verdict(yes: bool) -> u8 {
    if yes {
        b'y'
    } else {
        b'n'
    }
}

/// The start of a case, made from an opening by noting the actions taken, with the letter of the status
/// that they have; no event judges them, since a short policy would not take so many.
fn start(case: &Case) -> RawInstance {
    let (users, roles) = (case.users().into(), case.roles.into());
    let (words, rows) = (&case.policy.words, &case.policy.rows);
    let (code, mut raw) = RawInstance::open_secure(users, roles, words, rows, case.given());
    if code != 0 {
        return raw;
    }
    raw.state = case.order.as_ref().map_or(0, |order| order.state.into());
    let opened = raw.monitor().expect("the case opens");
    for (place, user) in case.taken.iter().map(|user| usize::from(*user)).enumerate() {
        let held = reference::policy::ones(case.policy.rows[user]);
        raw.actions[place] = RawAction::taken(opened.policy(), user, &held);
    }
    raw.count = case.taken.len();
    raw.with_defined_letter()
}

/// An instance of the reference program as the hand-tuned program keeps it.
fn from_raw(raw: &RawInstance) -> Monitor {
    let transition = |arrow: reference::secure::Transition| {
        let [state, action, next] = arrow.bytes();
        Transition { state, action, next }
    };
    let workflow = Workflow {
        transitions: raw.transitions.map(transition),
        final_states: raw.final_states,
        states: raw.states,
        count: raw.arrows,
    };
    let configuration = Configuration {
        permissions: raw.permissions,
        user_roles: raw.user_roles,
        users: raw.users as u32,
        roles: raw.roles as u32,
    };
    let instance = Instance {
        policy: raw.policy,
        actions: raw.actions.map(|a| Action { user: a.user as u32, met: a.met }),
        workflow,
        words: raw.length as u8,
        taken: raw.count as u8,
        closed: raw.closed,
        status: raw.letter,
        state: raw.state as u32,
    };
    Monitor { configuration, instance }
}

/// (a) The proved library; or an earlier build of it.
pub struct Proved<'a> {
    case: &'a Case,
    library: &'a Library,
    start: Stored,
    now: Stored,
    workspace: Box<Workspace>,
    users: u16,
    place: u8,
    converted: Converted,
}

impl<'a> Proved<'a> {
    /// With the input of a case.
    pub fn new(case: &'a Case, library: &'a Library) -> Proved<'a> {
        let start = library.stored(&from_raw(&start(case)));
        let (workspace, users, place) = (Workspace::new(), 0, NO_PLACE);
        let converted = Converted::new();
        Proved { case, library, start, now: start, workspace, users, place, converted }
    }
}

impl Candidate for Proved<'_> {
    fn run(&mut self) -> u8 {
        let Proved { case, library, start, now, workspace, users: named, place, converted } = self;
        let (users, roles) = (case.users(), case.roles);
        let (policy, rows) = (&case.policy.words[..], &case.policy.rows[..]);
        let workspace = &mut workspace.0[..];
        let calls = library.calls();
        match &case.job {
            Job::Event(word) => {
                now.clone_from(start);
                library.event(now, *word, workspace)
            }
            Job::Refused(word) => library.event(now, *word, workspace),
            Job::Status => library.status(now, workspace),
            Job::Enabled(action) => library.enabled(now, *action, workspace, named),
            Job::Multiset(counts) => {
                calls.satisfies(users, roles, policy, rows, counts, workspace, place)
            }
            Job::NormalForm => calls.normal_form(users, roles, policy, workspace, place),
            Job::Open => library.open(now, (users, roles), policy, rows, case.given(), place),
            Job::Read(text) => {
                let out = &mut workspace[..MAX_WORDS];
                calls.read_text(users, roles, text, out, &mut converted.written, place)
            }
            Job::Write => {
                let Converted { written, bytes } = converted;
                calls.write_text(users, roles, policy, bytes, written, place)
            }
        }
    }

    fn monitor(&self) -> Monitor {
        self.library.monitor(&self.now)
    }

    /// Where the status is not kept, the actions are judged, and the workspace speaks of them.
    fn words(&self) -> Option<&[u32]> {
        let comparable = self.library.keeps_status() || !self.case.goes_by_status();
        comparable.then_some(&self.workspace.0[..words_left(self.case)])
    }

    fn users(&self) -> u16 {
        self.users
    }

    fn place(&self) -> Option<u8> {
        self.library.tells_places().then_some(self.place)
    }

    fn converted(&self) -> Option<&Converted> {
        Some(&self.converted)
    }
}

/// Who may act by the library's events alone: each user's action is tried on a copy, the last user's
/// last.
pub struct Tried<'a> {
    case: &'a Case,
    action: u8,
    library: &'a Library,
    start: Stored,
    workspace: Box<Workspace>,
    users: u16,
}

impl<'a> Tried<'a> {
    /// With the input of a case, for the action with this number.
    pub fn new(case: &'a Case, action: u8, library: &'a Library) -> Tried<'a> {
        let start = library.stored(&from_raw(&start(case)));
        Tried { case, action, library, start, workspace: Workspace::new(), users: 0 }
    }
}

impl Candidate for Tried<'_> {
    fn run(&mut self) -> u8 {
        self.users = 0;
        for user in 0..self.case.users() {
            let mut copy = self.start;
            let word = numbered(user, self.action);
            let number = self.library.event(&mut copy, word, &mut self.workspace.0);
            self.users |= u16::from(number == 0) << user;
        }
        0
    }

    fn monitor(&self) -> Monitor {
        self.library.monitor(&self.start)
    }

    fn words(&self) -> Option<&[u32]> {
        Some(&self.workspace.0)
    }

    fn users(&self) -> u16 {
        self.users
    }
}

/// (b) The reference program's search: the answer alone, or the workspace too.
pub struct Searched<'a> {
    case: &'a Case,
    start: RawInstance,
    now: RawInstance,
    workspace: Box<Workspace>,
    fills: bool,
    users: u16,
    place: u8,
    converted: Converted,
}

impl<'a> Searched<'a> {
    /// With the input of a case.
    pub fn new(case: &'a Case, fills: bool) -> Searched<'a> {
        let (start, workspace, converted) = (start(case), Workspace::new(), Converted::new());
        let (users, place) = (0, NO_PLACE);
        Searched { case, start, now: start, workspace, fills, users, place, converted }
    }

    /// What a run begins with. The answer alone, where it goes by the status, begins with a search for
    /// the letter.
    fn first(&self) -> RawInstance {
        if self.case.goes_by_status() && !self.fills {
            self.start.with_defined_letter()
        } else {
            self.start
        }
    }

    /// A text read or written.
    fn convert(&mut self, users: usize, roles: usize) -> u8 {
        let (out, bytes) = (&mut self.workspace.0[..MAX_WORDS], &mut self.converted.bytes);
        let answer = match &self.case.job {
            Job::Read(text) => text::read_text(users, roles, text, out),
            _ => text::write_text(users, roles, &self.case.policy.words, bytes),
        };
        match answer {
            Ok(written) => self.converted.note(written),
            Err(refused) => {
                self.place = refused.place.map_or(NO_PLACE, |place| place as u8);
                refused.code as u8
            }
        }
    }

    /// The multiset test without a workspace.
    fn multiset(&self, users: usize, roles: usize, counts: &[u8; 16]) -> Result<bool, u32> {
        let (policy, rows) = (&self.case.policy.words, &self.case.policy.rows);
        let (policy, actions) = multiset::open_multiset(users, roles, policy, rows, counts)?;
        Ok(Search::new(&policy).satisfied(&actions))
    }
}

impl Candidate for Searched<'_> {
    fn run(&mut self) -> u8 {
        let (users, roles) = (self.case.users().into(), self.case.roles.into());
        let (policy, rows) = (&self.case.policy.words[..], &self.case.policy.rows[..]);
        (self.now, self.users) = (self.first(), 0);
        let workspace = &mut self.workspace.0[..];
        let number = |code: u32| code as u8;
        let letter = |letter: char| letter as u8;
        match (&self.case.job, self.fills) {
            (Job::Event(word) | Job::Refused(word), true) => {
                number(self.now.event(*word, workspace))
            }
            (Job::Event(word) | Job::Refused(word), false) => number(self.now.step(*word).code),
            (Job::Status, _) => self.now.status().map_or_else(number, letter),
            (Job::Enabled(action), fills) => {
                self.users = tried(&self.now, *action, fills.then_some(workspace));
                0
            }
            (Job::Multiset(counts), true) => {
                let answer = multiset::multiset(users, roles, policy, rows, counts, workspace);
                answer.map_or_else(number, verdict)
            }
            (Job::Multiset(counts), false) => {
                self.multiset(users, roles, counts).map_or_else(number, verdict)
            }
            (Job::NormalForm, _) => {
                number(reference::policy::normal_form(users, roles, policy, workspace))
            }
            (Job::Open, _) => {
                let given = self.case.given();
                let (code, opened) = RawInstance::open_secure(users, roles, policy, rows, given);
                self.now = opened;
                let place = place_of(code, users, roles, policy);
                self.place = place.map_or(NO_PLACE, |place| place as u8);
                number(code)
            }
            (Job::Read(_) | Job::Write, _) => self.convert(users, roles),
        }
    }

    fn monitor(&self) -> Monitor {
        from_raw(&self.now)
    }

    fn words(&self) -> Option<&[u32]> {
        let always =
            matches!(self.case.job, Job::NormalForm | Job::Open | Job::Read(_) | Job::Write);
        let filled = self.fills || always;
        filled.then_some(&self.workspace.0[..words_left(self.case)])
    }

    fn users(&self) -> u16 {
        self.users
    }

    fn place(&self) -> Option<u8> {
        Some(self.place)
    }

    fn converted(&self) -> Option<&Converted> {
        Some(&self.converted)
    }
}

/// Who may execute an action on a well-formed instance by search: each user's is tried, that of the last
/// user who is let through with the workspace, if there is one.
fn tried(raw: &RawInstance, action: u8, workspace: Option<&mut [u32]>) -> u16 {
    let word = |user: usize| numbered(user as u8, action);
    let codes: Vec<u32> = (0..raw.users).map(|user| { *raw }.step(word(user)).code).collect();
    let last = codes.iter().rposition(|code| ![16, 17].contains(code));
    if let (Some(last), Some(workspace)) = (last, workspace) {
        { *raw }.event(word(last), workspace);
    }
    codes.iter().enumerate().map(|(user, code)| u16::from(*code == 0) << user).sum()
}

/// (c) and (d): the hand-tuned program, with either way to fill the workspace.
pub struct Tuned<'a> {
    case: &'a Case,
    start: Monitor,
    now: Monitor,
    workspace: Box<Workspace>,
    fill: Fill,
    users: u16,
    place: u8,
    converted: Converted,
}

impl<'a> Tuned<'a> {
    /// With the input of a case.
    pub fn new(case: &'a Case, fill: Fill) -> Tuned<'a> {
        let (start, workspace) = (from_raw(&start(case)), Workspace::new());
        let (users, place, converted) = (0, NO_PLACE, Converted::new());
        Tuned { case, start, now: start, workspace, fill, users, place, converted }
    }
}

impl Candidate for Tuned<'_> {
    fn run(&mut self) -> u8 {
        let Tuned { case, start, now, workspace, fill, users: named, place, converted } = self;
        let (users, roles) = (case.users(), case.roles);
        let (policy, rows) = (&case.policy.words[..], &case.policy.rows[..]);
        let workspace = &mut workspace.0[..];
        match &case.job {
            Job::Event(word) => {
                now.clone_from(start);
                byte(now.event(*word, workspace, *fill), |()| 0)
            }
            Job::Refused(word) => byte(now.event(*word, workspace, *fill), |()| 0),
            Job::Status => byte(now.status(), |letter| letter),
            Job::Enabled(action) => byte(now.enabled(*action, workspace), |users| {
                *named = users;
                0
            }),
            Job::Multiset(counts) => {
                let declared = (users, roles);
                let answer = tuned::satisfies(declared, policy, rows, counts, workspace, *fill);
                policy_byte(answer, place, verdict)
            }
            Job::NormalForm => {
                let answer = tuned::normal::normal_form(users, roles, policy, workspace);
                policy_byte(answer, place, |()| 0)
            }
            Job::Open => {
                let opened = now.open((users, roles), policy, rows, case.given());
                policy_byte(opened, place, |()| 0)
            }
            Job::Read(text) => {
                let out = &mut workspace[..MAX_WORDS];
                let answer = tuned::text::read(users, roles, text, out);
                policy_byte(answer, place, |written| converted.note(written))
            }
            Job::Write => {
                let answer = tuned::text::write(users, roles, policy, &mut converted.bytes);
                policy_byte(answer, place, |written| converted.note(written))
            }
        }
    }

    fn monitor(&self) -> Monitor {
        self.now
    }

    fn words(&self) -> Option<&[u32]> {
        Some(&self.workspace.0[..words_left(self.case)])
    }

    fn users(&self) -> u16 {
        self.users
    }

    fn place(&self) -> Option<u8> {
        Some(self.place)
    }

    fn converted(&self) -> Option<&Converted> {
        Some(&self.converted)
    }
}

#[cfg(test)]
mod tests {
    use reference::generate::calls::{enabled_edges, enabled_input, EnabledInput};
    use reference::generate::calls::{
        event_edges, event_input, multiset_input, policy_input, EventInput, MultisetInput,
        PolicyInput,
    };
    use reference::generate::secure::faulty;
    use reference::generate::Random;
    use reference::secure::Given;

    use super::*;

    /// Both ways to fill a workspace.
    const FILLS: [Fill; 2] = [tuned::rows::fill, tuned::by_term::fill];

    #[test]
    fn tuned_code_takes_events_as_the_reference_does() {
        let mut random = Random::new(21);
        let mut inputs: Vec<EventInput> =
            event_edges(&mut random).into_iter().map(|(_, input)| input).collect();
        inputs.extend((0..600).map(|_| event_input(&mut random)));
        for input in inputs {
            for fill in FILLS {
                let (mut raw, mut monitor) = (input.instance, from_raw(&input.instance));
                let mut expected = vec![7; input.workspace];
                let mut workspace = expected.clone();
                let code = raw.event(input.word, &mut expected) as u8;
                let got = byte(monitor.event(input.word, &mut workspace, fill), |()| 0);
                assert_eq!((got, monitor), (code, from_raw(&raw)), "{input:x?}");
                assert_eq!(workspace, expected, "{input:x?}");
                let letter = raw.status().map_or_else(|code| code as u8, |c| c as u8);
                assert_eq!(byte(monitor.status(), |letter| letter), letter, "{input:x?}");
            }
        }
    }

    #[test]
    fn tuned_code_tells_who_may_act_as_the_reference_does() {
        let mut random = Random::new(24);
        let edges = enabled_edges(&mut random).into_iter().map(|(_, input)| input);
        let mut inputs: Vec<EnabledInput> = edges.collect();
        inputs.extend((0..1200).map(|_| enabled_input(&mut random)));
        let mut seen = [0; 3];
        for EnabledInput { instance: raw, action, workspace } in inputs {
            let mut expected = vec![7; workspace];
            let mut lent = expected.clone();
            let answer = raw.enabled(action, &mut expected).map_err(|code| code as u8);
            let got = from_raw(&raw).enabled(action, &mut lent).map_err(Refusal::number);
            assert_eq!((got, lent), (answer, expected), "{raw:x?}");
            seen[answer.map_or(0, |users| if users == 0 { 1 } else { 2 })] += 1;
        }
        assert!(seen.iter().all(|count| *count > 20), "{seen:?}");
    }

    #[test]
    fn tuned_code_tells_who_may_act_in_every_row() {
        for case in crate::cases::enabled() {
            let raw = start(&case);
            let mut workspace = vec![7; tuned::WORDS];
            let got = from_raw(&raw).enabled(0, &mut workspace);
            assert_eq!(got, Ok(tried(&raw, 0, None)), "{:?}", case.name());
        }
    }

    #[test]
    fn tuned_code_tests_multisets_as_the_reference_does() {
        let mut random = Random::new(22);
        for _ in 0..400 {
            let MultisetInput { users, roles, words, user_roles, counts, workspace } =
                multiset_input(&mut random);
            for fill in FILLS {
                let mut expected = vec![7; workspace];
                let mut lent = expected.clone();
                let answer =
                    multiset::multiset(users, roles, &words, &user_roles, &counts, &mut expected);
                let given = (users as u8, roles as u8);
                let got = tuned::satisfies(given, &words, &user_roles, &counts, &mut lent, fill);
                let code = answer.map_or_else(|code| code as u8, verdict);
                assert_eq!(byte(got, verdict), code, "{words:x?} {counts:?}");
                assert_eq!(lent, expected, "{words:x?} {counts:?}");
            }
        }
    }

    #[test]
    fn tuned_code_opens_and_brings_to_normal_form_as_the_reference_does() {
        let mut random = Random::new(23);
        for _ in 0..2000 {
            let PolicyInput { users, roles, words, output } = policy_input(&mut random);
            let given = (users as u8, roles as u8);
            let mut expected = vec![7; output];
            let mut out = expected.clone();
            let code = reference::policy::normal_form(users, roles, &words, &mut expected) as u8;
            let got = tuned::normal::normal_form(given.0, given.1, &words, &mut out);
            assert_eq!((byte(got, |()| 0), &out), (code, &expected), "{words:x?}");
            let rows: Vec<u16> = (0..users).map(|_| random.word() as u16 & 7).collect();
            let order = if random.percent(50) { faulty(&mut random, 3) } else { Given::default() };
            let order = (&order.permissions[..], &order.workflow[..]);
            let (code, raw) = RawInstance::open_secure(users, roles, &words, &rows, order);
            let mut monitor = Monitor::default();
            let opened = monitor.open(given, &words, &rows, order);
            assert_eq!((byte(opened, |()| 0), monitor), (code as u8, from_raw(&raw)), "{words:x?}");
            let place = place_of(code, users, roles, &words);
            assert_eq!(opened.err().and_then(Refusal::place), place, "{words:x?}");
        }
    }
}
