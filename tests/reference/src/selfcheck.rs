//! The search held against the literal definitions on small random cases, the letters kept along longer
//! runs against 01's definition, spread forms against each other, and 01's examples.

mod spreading;

use std::collections::{BTreeMap, BTreeSet};

use crate::casefile::Case;
use crate::code::{self, Code};
use crate::event::{is_of_close_kind, Event};
use crate::examples;
use crate::generate::terms::{self, Style};
use crate::generate::{cases, secure, statuses, Random};
use crate::literal::{self, Assignment, Process, Reading, Transitions};
use crate::monitor::{Kept, Monitor, Taken};
use crate::multiset::multiset;
use crate::policy::{self, Term};
use crate::search::{Question, Search};
use crate::workspace;

/// How many checks passed and how many failed, and what the random cases covered.
#[derive(Clone, Debug, Default, PartialEq, Eq)]
pub struct Tally {
    /// Checks that passed.
    pub passed: usize,
    /// Checks that failed.
    pub failed: usize,
    /// How often each thing of interest came up in the random cases.
    pub covered: BTreeMap<&'static str, usize>,
}

impl Tally {
    /// Counts one check; prints the first failures.
    pub fn check(&mut self, name: &str, passed: bool, case: &dyn std::fmt::Debug) {
        if passed {
            self.passed += 1;
            return;
        }
        self.failed += 1;
        if self.failed <= 10 {
            println!("failed: {name}: {case:?}");
        }
    }

    /// Counts one thing of interest: the first name for yes, the second for no.
    fn cover(&mut self, yes: &'static str, no: &'static str, happened: bool) {
        *self.covered.entry(if happened { yes } else { no }).or_default() += 1;
    }
}

/// A small random case.
#[derive(Clone, Debug)]
struct Small {
    users: usize,
    roles: usize,
    term: Term,
    user_roles: Vec<u16>,
    events: Vec<Event>,
}

impl Small {
    /// Two or three users, two roles, at most seven words and four events.
    fn random(random: &mut Random) -> Small {
        let (users, roles) = (random.between(2, 3), 2);
        let style = Style { users, roles, lean: random.pick(&[50, 80]) };
        let term = small_term(random, style);
        let user_roles = cases::user_roles(random, users, roles);
        let events = (0..random.below(5)).map(|_| small_event(random, users, roles)).collect();
        Small { users, roles, term, user_roles, events }
    }

    /// The roles of the users as a relation.
    fn assignment(&self) -> Assignment {
        let rows = self.user_roles.iter().enumerate();
        rows.flat_map(|(user, row)| policy::ones(*row).into_iter().map(move |role| (user, role)))
            .collect()
    }

    /// The monitor, opened.
    fn open(&self) -> Monitor<Taken> {
        Monitor::open(self.users, self.roles, &self.term.words(), &self.user_roles)
            .expect("a small case opens")
    }

    /// The number of each event and of a close, with the status behind it, under another policy.
    fn answers(&self, term: &Term) -> Vec<(Code, char)> {
        let mut monitor = Small { term: term.clone(), ..self.clone() }.open();
        let events = self.events.iter().chain(&[Event::Close]);
        events.map(|event| (monitor.step(as_word(*event)).code, monitor.status())).collect()
    }

    /// The process of the policy.
    fn process(&self, reading: Reading) -> Process {
        let users: BTreeSet<usize> = (0..self.users).collect();
        literal::map_term(&self.term, &users, &self.assignment(), reading)
    }

    /// The events as a trace; events that differ only in their action are told apart.
    fn trace(&self) -> Vec<literal::Event> {
        let event = |(place, event): (usize, &Event)| as_literal(*event, place as u8 % 2);
        self.events.iter().enumerate().map(event).collect()
    }
}

/// A random term of at most seven words; half of them are ones that many lists of actions fit.
fn small_term(random: &mut Random, style: Style) -> Term {
    let words = random.between(1, 7);
    let operands = random.between(1, 4);
    let rich = terms::rich(random, style, operands);
    if rich.length() <= 7 && random.percent(50) {
        rich
    } else {
        terms::term(random, style, words)
    }
}

/// A random action, grant or revocation.
fn small_event(random: &mut Random, users: usize, roles: usize) -> Event {
    let (user, role) = (random.below(users), random.below(roles));
    match random.below(10) {
        0..=6 => Event::Action { user, action: 0 },
        7 | 8 => Event::Grant { user, role },
        _ => Event::Revoke { user, role },
    }
}

/// The event of the literal definitions.
fn as_literal(event: Event, action: u8) -> literal::Event {
    match event {
        Event::Action { user, .. } => literal::Event::Business { user, action },
        Event::Grant { user, role } => literal::Event::Add { user, role },
        Event::Revoke { user, role } => literal::Event::Remove { user, role },
        Event::Close => literal::Event::Done,
    }
}

/// The event word.
fn as_word(event: Event) -> u32 {
    match event {
        Event::Action { user, action } => examples::numbered(user as u32, action),
        Event::Grant { user, role } => examples::grant(user as u32, role as u32),
        Event::Revoke { user, role } => examples::revoke(user as u32, role as u32),
        Event::Close => examples::CLOSE,
    }
}

/// The whole self check: 01's examples, then so many random cases for the seed.
pub fn selfcheck(seed: u64, count: usize) -> Tally {
    let mut tally = Tally::default();
    let checks = [examples::settled(), examples::mistakes(), examples::payment_examples()];
    for (name, passed) in checks.into_iter().flatten().chain(spreading::examples()) {
        tally.check(name, passed, &"an example");
    }
    let mut random = Random::new(seed);
    for _ in 0..count {
        let small = Small::random(&mut random);
        check_run(&mut tally, &small);
        check_whole_trace(&mut tally, &small);
        check_multiset(&mut tally, &small, &mut random);
        check_equal_form(&mut tally, &small, &mut random);
        check_workspace(&mut tally, &small);
        check_secure(&mut tally, &small, &mut random);
        check_kept(&mut tally, &mut random);
        spreading::check(&mut tally, &small, &mut random);
    }
    tally
}

/// A run of any length, with a workflow or without.
fn long_case(random: &mut Random) -> Case {
    match random.below(4) {
        0 => cases::rich_case(random),
        1 => cases::leavers_case(random),
        2 => secure::case(random),
        _ => statuses::case(random),
    }
}

/// The letter that a monitor keeps from its opening on against 01's definition, by a search that has
/// tried nothing yet, and by what it wants of a close. Only an accepted action or close may alter it.
fn check_kept(tally: &mut Tally, random: &mut Random) {
    let case = long_case(random);
    let mut monitor: Monitor<Taken> = case.open().expect("a random case opens");
    let mut raw = monitor.raw();
    tally.check("an opened monitor is open", monitor.status() == 'o', &case);
    for word in &case.events {
        let before = monitor.status();
        let accepted = monitor.step(*word).code == code::ACCEPTED;
        let kept = monitor.status();
        let (acts, closes) = (word >> 24 == 1, is_of_close_kind(*word));
        let stays = kept == before || accepted && (acts || closes);
        tally.check("the letter is kept", stays, &case);
        tally.check("the letter is as defined", kept == monitor.defined(), &case);
        let by_letter = !(accepted && closes) || (before, kept) == ('c', 'd');
        tally.check("an accepted close leads from c to d", by_letter, &case);
        raw.step(*word);
        tally.check("the letter by bits is the same", raw == monitor.raw(), &case);
        let today = kept == monitor.by_todays_roles();
        tally.cover("letters as today's roles say", "letters against today's roles", today);
    }
}

/// The numbers that actions have under a small workflow.
const ACTIONS: [u8; 3] = [0, 1, 63];

/// A small workflow of up to three states, and which role gives which of its actions.
#[derive(Clone, Debug)]
struct SmallWorkflow {
    permissions: literal::Permissions,
    plan: secure::Plan,
}

impl SmallWorkflow {
    /// More than half of the transitions and permissions that there can be.
    fn random(random: &mut Random, roles: usize) -> SmallWorkflow {
        let states = random.between(1, 3) as u8;
        let final_states = random.word() as u16 & ((1 << states) - 1);
        let mut plan = secure::Plan { states, final_states, transitions: vec![] };
        for (state, action) in (0..states).flat_map(|state| ACTIONS.map(|action| (state, action))) {
            if random.percent(60) {
                plan.transitions.push([state, action, random.below(states.into()) as u8]);
            }
        }
        let pairs = (0..roles).flat_map(|role| ACTIONS.map(|action| (role, action)));
        SmallWorkflow { permissions: pairs.filter(|_| random.percent(60)).collect(), plan }
    }

    /// The monitor of a small case under them, opened.
    fn open(&self, small: &Small) -> Monitor<Taken> {
        let row = |role: usize| {
            let given = self.permissions.iter().filter(|(giving, _)| *giving == role);
            given.map(|(_, action)| 1u64 << action).sum()
        };
        let rows: Vec<u64> = (0..small.roles).map(row).collect();
        let given = (&secure::permissions(&rows)[..], &self.plan.bytes()[..]);
        let (words, user_roles) = (small.term.words(), &small.user_roles);
        let opened = Monitor::open_secure(small.users, small.roles, &words, user_roles, given);
        opened.expect("a small case opens")
    }

    /// The number of each event and of a close under another policy, with the status and the state
    /// behind it; all actions have this number.
    fn answers(&self, small: &Small, term: &Term, action: u8) -> Vec<(Code, char, u8)> {
        let mut monitor = self.open(&Small { term: term.clone(), ..small.clone() });
        let events = small.events.iter().chain(&[Event::Close]);
        let words = events.map(|event| as_word(renumbered(*event, action)));
        words.map(|word| (monitor.step(word).code, monitor.status(), monitor.state())).collect()
    }

    /// Its process SSW.
    fn process(&self, small: &Small) -> Process {
        let edges = self.plan.transitions.iter().map(|[from, action, to]| (*from, *action, *to));
        let finals = policy::ones(self.plan.final_states).into_iter().map(|state| state as u8);
        let transitions = Transitions { edges: edges.collect(), finals: finals.collect() };
        let term = small.process(Reading::UnitFirst);
        literal::secure_workflow(&transitions, &small.assignment(), &self.permissions, term)
    }
}

/// The event, with another number if it is an action.
fn renumbered(event: Event, action: u8) -> Event {
    match event {
        Event::Action { user, .. } => Event::Action { user, action },
        other => other,
    }
}

/// The monitor of a small case under permissions and a workflow against SSW, event by event, with the
/// mask for each action and a close at the end.
fn check_secure(tally: &mut Tally, small: &Small, random: &mut Random) {
    let workflow = SmallWorkflow::random(random, small.roles);
    let mut monitor = workflow.open(small);
    let mut states = BTreeSet::from([workflow.process(small)]);
    let case = (small, &workflow);
    for event in &small.events {
        let action = random.pick(&ACTIONS);
        let event = renumbered(*event, action);
        check_secure_masks(tally, &monitor, &states, &case);
        let reached = followed(&states, as_literal(event, action));
        let code = monitor.step(as_word(event)).code;
        let agree = (code == code::ACCEPTED) != reached.is_empty();
        tally.check("an event is accepted when SSW engages in it", agree, &case);
        tally.cover("events that SSW takes", "events that SSW refuses", !reached.is_empty());
        states = if reached.is_empty() { states } else { reached };
    }
    let done = !followed(&states, literal::Event::Done).is_empty();
    let code = monitor.step(examples::CLOSE).code;
    let expected = if done { code::ACCEPTED } else { code::NOT_SATISFIED };
    tally.check("a close is accepted when SSW is done", code == expected, &case);
    tally.cover("SSW done", "SSW not done", done);
    check_equal_secure(tally, small, &workflow, random);
}

/// Equal forms give the same answers where permissions and workflow are the same.
fn check_equal_secure(
    tally: &mut Tally,
    small: &Small,
    workflow: &SmallWorkflow,
    random: &mut Random,
) {
    let (steps, action) = (random.below(8), random.pick(&ACTIONS));
    let equal = terms::equal_form(random, &small.term, steps);
    let answers = |term: &Term| workflow.answers(small, term, action);
    let same =
        answers(&small.term) == answers(&equal) && answers(&equal) == answers(&equal.normal());
    tally.check("equal forms, the same answers under a workflow", same, &(small, &equal, workflow));
}

/// The states that a process reaches from some states by one event.
fn followed(states: &BTreeSet<Process>, event: literal::Event) -> BTreeSet<Process> {
    states.iter().flat_map(|state| literal::next(state, event)).collect()
}

/// The mask for each action against SSW.
fn check_secure_masks(
    tally: &mut Tally,
    monitor: &Monitor<Taken>,
    states: &BTreeSet<Process>,
    case: &dyn std::fmt::Debug,
) {
    for action in ACTIONS {
        let engages = |user: &usize| {
            !followed(states, literal::Event::Business { user: *user, action }).is_empty()
        };
        let users = (0..monitor.users()).filter(engages);
        let expected: u16 = users.map(|user| 1u16 << user).sum();
        tally.check("the mask follows SSW", monitor.mask(action) == expected, case);
    }
}

/// The monitor against Definitions 6 and 7, event by event: a refused action is not in the trace.
/// The mask beside it is asked for anew after accepted events only.
fn check_run(tally: &mut Tally, small: &Small) {
    let mut monitor = small.open();
    let mut raw = monitor.raw();
    let mut states = BTreeSet::from([small.process(Reading::UnitFirst)]);
    let mut trace: Vec<literal::Event> = Vec::new();
    let mut mask = monitor.mask(0);
    for (event, label) in small.events.iter().zip(small.trace()) {
        check_mask(tally, small, &states, mask);
        let code = monitor.step(as_word(*event)).code;
        let reached: BTreeSet<Process> =
            states.iter().flat_map(|state| literal::next(state, label)).collect();
        let expected = if reached.is_empty() { code::NOT_POSSIBLE } else { code::ACCEPTED };
        tally.check("an event is accepted when the process engages in it", code == expected, small);
        if code == code::ACCEPTED {
            states = reached;
            trace.push(label);
            mask = monitor.mask(0);
        }
        if let Event::Action { user, .. } = *event {
            tally.cover("actions taken", "actions refused", code == code::ACCEPTED);
            let has_role = monitor.raw().user_roles[user] != 0;
            tally.cover("actions tried with a role", "actions tried without a role", has_role);
        }
        let by_bits = raw.step(as_word(*event)).code;
        tally.check("the bits and the roles agree", by_bits == code && raw == monitor.raw(), small);
        let by_bits = raw.monitor().map(|monitor| monitor.mask(0));
        tally.check("the mask by bits is the same", by_bits == Ok(mask), small);
        check_letter(tally, small, &monitor, &trace);
    }
    check_mask(tally, small, &states, mask);
    check_close(tally, small, &mut monitor, &states, &trace);
    let mask = if monitor.status() == 'd' { 0 } else { mask };
    tally.check("the mask after a close", monitor.mask(0) == mask, small);
}

/// A mask against Definition 7: a user has a bit when the process engages in an action of that
/// user, whichever it is.
fn check_mask(tally: &mut Tally, small: &Small, states: &BTreeSet<Process>, mask: u16) {
    let engages = |user, action| {
        let event = literal::Event::Business { user, action };
        states.iter().any(|state| !literal::next(state, event).is_empty())
    };
    for user in 0..small.users {
        let bit = mask >> user & 1 == 1;
        let same = engages(user, 0) == bit && engages(user, 1) == bit;
        tally.check("the mask follows Definition 7", same, small);
        tally.cover("users who may act", "users who may not", bit);
    }
    tally.check("no other user has a bit", mask >> small.users == 0, small);
}

/// The status against Definition 6.
fn check_letter(
    tally: &mut Tally,
    small: &Small,
    monitor: &Monitor<Taken>,
    trace: &[literal::Event],
) {
    let satisfied = literal::trace_satisfies(trace, small.users, &small.assignment(), &small.term);
    let letter = if satisfied { 'c' } else { 'o' };
    tally.check("the status follows Definition 6", monitor.status() == letter, small);
    let by_bits = monitor.raw().status();
    tally.check("the status by bits follows Definition 6", by_bits == Ok(letter), small);
}

/// A close against done (Definition 7) and against Definition 6.
fn check_close(
    tally: &mut Tally,
    small: &Small,
    monitor: &mut Monitor<Taken>,
    states: &BTreeSet<Process>,
    trace: &[literal::Event],
) {
    let done = states.iter().any(|state| !literal::next(state, literal::Event::Done).is_empty());
    let satisfied = literal::trace_satisfies(trace, small.users, &small.assignment(), &small.term);
    tally.check("done is accepted when the trace satisfies", done == satisfied, small);
    let expected: Code = if done { code::ACCEPTED } else { code::NOT_SATISFIED };
    let code = monitor.step(examples::CLOSE).code;
    tally.check("a close follows Definition 7", code == expected, small);
    tally.cover("closes taken", "closes refused", done);
    let letter = if done { 'd' } else { 'o' };
    tally.check("the status after a close", monitor.status() == letter, small);
}

/// The actions of a whole trace, each with the roles held at the time, none refused.
fn actions_of(small: &Small) -> Vec<Taken> {
    let mut held: Vec<BTreeSet<usize>> =
        small.user_roles.iter().map(|row| policy::ones(*row)).collect();
    let mut actions = Vec::new();
    for event in &small.events {
        match *event {
            Event::Action { user, .. } => {
                actions.push(Taken { user, held: held[user].clone() });
            }
            Event::Grant { user, role } => {
                held[user].insert(role);
            }
            Event::Revoke { user, role } => {
                held[user].remove(&role);
            }
            Event::Close => {}
        }
    }
    actions
}

/// Satisfied and possible for all actions of a trace, also where a monitor would have refused
/// one, against Definitions 6 and 7; and both readings of Definition 7 against each other.
fn check_whole_trace(tally: &mut Tally, small: &Small) {
    let actions = actions_of(small);
    let mut search = Search::new(&small.term);
    let trace = small.trace();
    let satisfied = literal::trace_satisfies(&trace, small.users, &small.assignment(), &small.term);
    tally.check("satisfied is Definition 6", search.satisfied(&actions) == satisfied, small);
    let unit_first = literal::accepts(&small.process(Reading::UnitFirst), &trace);
    let possible = search.possible(&actions);
    tally.check("possible is Definition 7", possible != unit_first.is_empty(), small);
    tally.cover("whole traces possible", "whole traces not possible", possible);
    tally.cover("whole traces satisfying", "whole traces not satisfying", satisfied);
    let operators_first = literal::accepts(&small.process(Reading::OperatorsFirst), &trace);
    let same = unit_first.is_empty() == operators_first.is_empty();
    tally.check("both readings accept the same traces", same, small);
    let done = |states: &BTreeSet<Process>| {
        states.iter().any(|state| !literal::next(state, literal::Event::Done).is_empty())
    };
    let same = done(&unit_first) == done(&operators_first);
    tally.check("both readings finish after the same traces", same, small);
    tally.check("done goes with Definition 6", done(&unit_first) == satisfied, small);
}

/// The multiset test against Definition 3, and Definition 6 against it where no role changes.
fn check_multiset(tally: &mut Tally, small: &Small, random: &mut Random) {
    let mut counts = [0u8; 16];
    let (mut trace, mut actions) = (Vec::new(), Vec::new());
    for place in 0..random.below(5) {
        let user = random.below(small.users);
        counts[user] += 1;
        actions.push(Taken { user, held: policy::ones(small.user_roles[user]) });
        trace.push(literal::Event::Business { user, action: place as u8 % 2 });
    }
    let many = counts[..small.users].iter().map(|count| usize::from(*count)).collect();
    let assignment = small.assignment();
    let expected = literal::multiset_satisfies(&many, &assignment, &small.term);
    tally.cover("multisets yes", "multisets no", expected);
    let mut lent = vec![7; workspace::WORDS];
    let words = small.term.words();
    let answer = multiset(small.users, small.roles, &words, &small.user_roles, &counts, &mut lent);
    tally.check("the multiset test is Definition 3", answer == Ok(expected), &(small, counts));
    let by_trace = literal::trace_satisfies(&trace, small.users, &assignment, &small.term);
    tally.check("Definitions 3 and 6 agree", by_trace == expected, &(small, &trace));
    actions.sort_by_key(|action| action.user);
    let fits = lent == workspace::expected(&small.term, &actions);
    tally.check("the workspace of a multiset is in order of users", fits, &(small, counts));
}

/// Equal forms have one normal form and give the same answers; normal forms are accepted and are
/// their own normal forms.
fn check_equal_form(tally: &mut Tally, small: &Small, random: &mut Random) {
    let steps = random.below(8);
    let equal = terms::equal_form(random, &small.term, steps);
    let words = small.term.words();
    let read = policy::read_term(small.users, small.roles, &words);
    tally.check("a term is read from its words", read.as_ref() == Ok(&small.term), small);
    let normal = small.term.normal();
    tally.check("equal forms, one normal form", normal == equal.normal(), &(small, &equal));
    tally.check("normal twice is normal once", normal == normal.normal(), small);
    let answers = small.answers(&equal);
    let same = small.answers(&small.term) == answers && answers == small.answers(&normal);
    tally.check("equal forms, the same answers", same, &(small, &equal));
}

/// Each bit of the workspace against Definitions 6 and 7: the set's actions with all admin events.
fn check_workspace(tally: &mut Tally, small: &Small) {
    let actions = actions_of(small);
    let words = workspace::expected(&small.term, &actions);
    let terms = small.term.prefix_order();
    let users: BTreeSet<usize> = (0..small.users).collect();
    let mut agree = true;
    for set in 0..1usize << actions.len() {
        let trace = chosen(&small.trace(), set);
        for (word, term) in terms.iter().enumerate() {
            let satisfied =
                literal::trace_satisfies(&trace, small.users, &small.assignment(), term);
            let process = literal::map_term(term, &users, &small.assignment(), Reading::UnitFirst);
            let possible = !literal::accepts(&process, &trace).is_empty();
            agree &= (words[set] >> word & 1 == 1) == satisfied;
            agree &= (words[workspace::POSSIBLE + set] >> word & 1 == 1) == possible;
        }
    }
    tally.check("the workspace is Definitions 6 and 7", agree, small);
    let noted = noted(&small.term, &actions);
    let by_bits = workspace::expected(&small.term, &noted);
    tally.check("the workspace by bits is the same", by_bits == words, small);
    let empty = Search::new(&small.term).ask(Question::Possible, 0, &noted[..0]);
    tally.check("no action is possible", empty, small);
}

/// The same actions with noted bits.
fn noted(term: &Term, actions: &[Taken]) -> Vec<crate::raw::RawAction> {
    let note = |action: &Taken| crate::raw::RawAction { user: action.user, met: action.bits(term) };
    actions.iter().map(note).collect()
}

/// The trace without the business events that are not in the set.
fn chosen(trace: &[literal::Event], set: usize) -> Vec<literal::Event> {
    let mut place = 0;
    let mut kept = Vec::new();
    for event in trace {
        if !event.is_business() {
            kept.push(*event);
            continue;
        }
        if set >> place & 1 == 1 {
            kept.push(*event);
        }
        place += 1;
    }
    kept
}

#[cfg(test)]
mod tests {
    use super::*;

    #[test]
    fn small_cases_agree() {
        let tally = selfcheck(20240, 300);
        assert_eq!(tally.failed, 0);
        assert!(tally.passed > 300);
    }

    #[test]
    fn wrong_rules_are_told_apart_by_small_cases() {
        let covered = selfcheck(20241, 300).covered;
        for rule in ["plus over either", "either over together", "apart into together"] {
            assert!(covered.contains_key(&*format!("{rule} told apart")), "{rule}");
        }
    }
}
