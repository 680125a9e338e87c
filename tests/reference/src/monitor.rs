//! A monitor and its rules (01, "Sheets and events" and "Satisfied and possible"; 02, E4 and E6): the
//! order of refusals, what an event alters, the status that is kept.
//!
//! The rules are said once, over either way to keep a taken action: with the roles that its user
//! held at the time ([`Taken`]), or with the bits noted for it ([`crate::raw::RawAction`]).

use std::collections::BTreeSet;

use crate::code::{self, Code};
use crate::event::{read_event, Event};
use crate::policy::{self, Term};
use crate::raw::RawInstance;
use crate::search::{Acted, Search};
use crate::secure::Secure;
use crate::workspace;

/// The most actions that an instance may take, and that a multiset may hold.
pub const MOST_ACTIONS: usize = 12;

/// What is kept of a taken action.
pub trait Kept: Acted {
    /// An action taken by a user who holds these roles.
    fn taken(policy: &Term, user: usize, held: &BTreeSet<usize>) -> Self;
    /// The bits that 01 has noted for it: bit i for the unit term at word i.
    fn bits(&self, policy: &Term) -> u32;
}

/// A taken action: the user, and the roles that the user held when it was taken.
#[derive(Clone, Debug, PartialEq, Eq, Hash)]
pub struct Taken {
    /// The user who acted.
    pub user: usize,
    /// The roles held at the time.
    pub held: BTreeSet<usize>,
}

impl Acted for Taken {
    fn user(&self) -> usize {
        self.user
    }

    fn meets(&self, _word: usize, unit: &Term) -> bool {
        policy::meets(unit, self.user, &self.held)
    }
}

impl Kept for Taken {
    fn taken(_policy: &Term, user: usize, held: &BTreeSet<usize>) -> Taken {
        Taken { user, held: held.clone() }
    }

    fn bits(&self, policy: &Term) -> u32 {
        policy::met_bits(policy, self.user, &self.held)
    }
}

/// The answer to an event, and the actions of which the workspace then speaks (none if the
/// workspace is left as it was).
#[derive(Clone, Debug, PartialEq, Eq)]
pub struct Outcome<A> {
    /// The number answered.
    pub code: Code,
    /// The actions that were judged.
    pub judged: Option<Vec<A>>,
}

impl<A> Outcome<A> {
    /// An answer that leaves the workspace as it was.
    pub fn unjudged(code: Code) -> Outcome<A> {
        Outcome { code, judged: None }
    }

    /// An answer after which the workspace speaks of these actions.
    pub fn judged(code: Code, actions: Vec<A>) -> Outcome<A> {
        Outcome { code, judged: Some(actions) }
    }
}

/// Who is declared, and who holds which roles (Definition 1).
#[derive(Clone, Debug)]
struct Configuration {
    users: usize,
    roles: usize,
    user_roles: Vec<BTreeSet<usize>>,
}

/// One run under a policy and, if they are given, permissions and a workflow: what was taken, the
/// workflow's present state, and the letter of the status, which is `d` exactly when it is closed.
#[derive(Clone, Debug)]
struct Instance<A> {
    policy: Term,
    secure: Option<Secure>,
    state: u8,
    taken: Vec<A>,
    letter: char,
    search: Search<A>,
}

/// A monitor (01's sheet): a configuration and an instance.
#[derive(Clone, Debug)]
pub struct Monitor<A> {
    configuration: Configuration,
    instance: Instance<A>,
}

impl<A: Kept> Instance<A> {
    /// The state that an action leads to, tried by a user who holds these roles: where nothing else is
    /// given, the same one.
    fn next(&self, held: &BTreeSet<usize>, action: u8) -> Result<u8, Code> {
        let secure = self.secure.as_ref();
        secure.map_or(Ok(self.state), |secure| secure.step(held, self.state, action))
    }

    /// Whether the workflow may end now.
    fn is_final(&self) -> bool {
        let workflow = self.secure.as_ref().map(|secure| &secure.workflow);
        workflow.is_none_or(|workflow| workflow.final_states.contains(&self.state))
    }

    /// An action: taken when a role gives it, a transition has it, and all actions with it are
    /// possible. Then alone the state moves, and the letter is worked out anew.
    fn act(&mut self, user: usize, action: u8, held: &BTreeSet<usize>) -> Outcome<A> {
        let next = match self.next(held, action) {
            Ok(next) => next,
            Err(refusal) => return Outcome::unjudged(refusal),
        };
        if self.taken.len() == MOST_ACTIONS {
            return Outcome::unjudged(code::TOO_MANY_ACTIONS);
        }
        let mut tried = self.taken.clone();
        tried.push(A::taken(&self.policy, user, held));
        if !self.search.possible(&tried) {
            return Outcome::judged(code::NOT_POSSIBLE, tried);
        }
        self.letter = if self.search.satisfied(&tried) { 'c' } else { 'o' };
        self.taken = tried.clone();
        self.state = next;
        Outcome::judged(code::ACCEPTED, tried)
    }

    /// A close: accepted when the letter is `c` and the workflow may end. It judges nothing.
    fn close(&mut self) -> Outcome<A> {
        if self.letter != 'c' || !self.is_final() {
            return Outcome::unjudged(code::NOT_SATISFIED);
        }
        self.letter = 'd';
        Outcome::unjudged(code::ACCEPTED)
    }
}

impl<A: Kept> Monitor<A> {
    /// Opens a monitor with neither permissions nor a workflow: no action, status `o`.
    ///
    /// # Errors
    /// 5, 1, 2, 3, 4, 6, looked for in that order.
    pub fn open(
        users: usize,
        roles: usize,
        words: &[u32],
        user_roles: &[u16],
    ) -> Result<Monitor<A>, Code> {
        Monitor::open_secure(users, roles, words, user_roles, (&[], &[]))
    }

    /// Opens a monitor with permissions and a workflow, unless both are empty: no action, in state 0,
    /// status `o`.
    ///
    /// # Errors
    /// 5, 1, 2, 3, 4, 6, 19, looked for in that order.
    pub fn open_secure(
        users: usize,
        roles: usize,
        words: &[u32],
        user_roles: &[u16],
        (permissions, workflow): (&[u8], &[u8]),
    ) -> Result<Monitor<A>, Code> {
        let policy = policy::read_term(users, roles, words)?;
        if !policy::user_roles_fit(users, roles, user_roles) {
            return Err(code::USER_ROLES);
        }
        let secure = Secure::read(roles, permissions, workflow)?;
        let user_roles = user_roles.iter().map(|row| policy::ones(*row)).collect();
        let search = Search::new(&policy);
        Ok(Monitor {
            configuration: Configuration { users, roles, user_roles },
            instance: Instance { policy, secure, state: 0, taken: vec![], letter: 'o', search },
        })
    }

    /// The same monitor after these actions, in this state and with this letter, whatever run led
    /// there.
    pub fn at(mut self, taken: Vec<A>, state: u8, letter: char) -> Monitor<A> {
        self.instance.taken = taken;
        self.instance.state = state;
        self.instance.letter = letter;
        self
    }

    /// One event, without a workspace: 10, 7, then 16, 17, 8, 9 or 11.
    pub fn step(&mut self, word: u32) -> Outcome<A> {
        let Monitor { configuration: Configuration { users, roles, user_roles }, instance } = self;
        if instance.letter == 'd' {
            return Outcome::unjudged(code::CLOSED);
        }
        match read_event(*users, *roles, word) {
            Err(refusal) => return Outcome::unjudged(refusal),
            Ok(Event::Action { user, action }) => {
                return instance.act(user, action, &user_roles[user]);
            }
            Ok(Event::Close) => return instance.close(),
            Ok(Event::Grant { user, role }) => user_roles[user].insert(role),
            Ok(Event::Revoke { user, role }) => user_roles[user].remove(&role),
        };
        Outcome::unjudged(code::ACCEPTED)
    }

    /// The status: the letter that is kept, whatever the taken actions say.
    pub fn status(&self) -> char {
        self.instance.letter
    }

    /// The letter that 01 defines for the taken actions: `d` closed, else `c` if they satisfy, else
    /// `o`. On a monitor that was opened and sent events it is the one that is kept.
    pub fn defined(&self) -> char {
        let Instance { policy, taken, letter, .. } = &self.instance;
        match () {
            () if *letter == 'd' => 'd',
            () if Search::new(policy).satisfied(taken) => 'c',
            () => 'o',
        }
    }

    /// The letter that a monitor would keep which judges old actions by today's roles, 01's first
    /// mistake.
    pub fn by_todays_roles(&self) -> char {
        let Monitor { configuration, instance } = self;
        let today = |action: &A| {
            let held = &configuration.user_roles[action.user()];
            A::taken(&instance.policy, action.user(), held)
        };
        let taken = instance.taken.iter().map(today).collect();
        self.clone().at(taken, instance.state, instance.letter).defined()
    }

    /// One event with its workspace: 12 first, but for words of kind 4, then as [`Monitor::step`].
    pub fn event(&mut self, word: u32, workspace: &mut [u32]) -> Code {
        if let Err(refusal) = workspace::check_for(word, workspace) {
            return refusal;
        }
        let outcome = self.step(word);
        if let Some(actions) = outcome.judged {
            workspace::fill(&mut self.instance.search, &actions, workspace);
        }
        outcome.code
    }

    /// The actions taken so far, in order of arrival.
    pub fn taken(&self) -> &[A] {
        &self.instance.taken
    }

    /// Permissions and workflow, if they are given.
    pub fn secure(&self) -> Option<&Secure> {
        self.instance.secure.as_ref()
    }

    /// The workflow's present state.
    pub fn state(&self) -> u8 {
        self.instance.state
    }

    /// The roles that a user holds.
    pub fn held(&self, user: usize) -> &BTreeSet<usize> {
        &self.configuration.user_roles[user]
    }

    /// The number of users.
    pub fn users(&self) -> usize {
        self.configuration.users
    }

    /// The policy.
    pub fn policy(&self) -> &Term {
        &self.instance.policy
    }

    /// The same monitor as raw data, with the bits of its actions.
    pub fn raw(&self) -> RawInstance {
        let Monitor { configuration: Configuration { users, roles, user_roles }, instance } = self;
        let mut raw = RawInstance { users: *users, roles: *roles, ..RawInstance::BLANK };
        let words = instance.policy.words();
        raw.length = words.len();
        raw.policy[..words.len()].copy_from_slice(&words);
        for (row, held) in raw.user_roles.iter_mut().zip(user_roles) {
            *row = held.iter().map(|role| 1u16 << role).sum();
        }
        raw.count = instance.taken.len();
        for (place, action) in raw.actions.iter_mut().zip(&instance.taken) {
            place.user = action.user();
            place.met = action.bits(&instance.policy);
        }
        raw.closed = u8::from(instance.letter == 'd');
        raw.letter = instance.letter as u8;
        instance.secure.iter().for_each(|secure| raw.keep_secure(secure));
        raw.state = instance.state.into();
        raw
    }
}

#[cfg(test)]
mod tests {
    use super::*;
    use crate::examples::{action, grant, numbered, revoke, CLOSE};
    use crate::policy::Operator;
    use crate::workspace::{expected, WORDS};

    const PLUS_EVERYONE: [u32; 2] = [0x05000000, 0x01000000];

    /// A monitor of plus everyone: two users with a role, one without.
    fn plus_everyone() -> Monitor<Taken> {
        Monitor::open(3, 2, &PLUS_EVERYONE, &[1, 2, 0]).expect("it opens")
    }

    #[test]
    fn openings_are_refused_in_order() {
        let refusal = |users, roles, words: &[u32], rows: &[u16]| {
            Monitor::<Taken>::open(users, roles, words, rows).err()
        };
        assert_eq!(refusal(0, 1, &[], &[]), Some(5));
        assert_eq!(refusal(1, 1, &[], &[]), Some(1));
        assert_eq!(refusal(1, 1, &[0], &[]), Some(2));
        assert_eq!(refusal(1, 1, &[0x05000000], &[]), Some(3));
        assert_eq!(refusal(1, 1, &[0x05000000, 0x05000000, 0x01000000], &[]), Some(4));
        assert_eq!(refusal(1, 1, &[0x01000000], &[]), Some(6));
        assert_eq!(refusal(1, 1, &[0x01000000], &[2]), Some(6));
        assert_eq!(refusal(1, 1, &[0x01000000], &[1, 0]), Some(6));
        assert_eq!(refusal(1, 1, &[0x01000000], &[1]), None);
    }

    #[test]
    fn twelve_and_thirteen_actions() {
        let mut monitor = plus_everyone();
        for _ in 0..12 {
            assert_eq!(monitor.step(action(1)).code, 0);
        }
        assert_eq!(monitor.step(action(3)).code, 7, "7 before 8");
        assert_eq!(monitor.step(action(2)), Outcome::unjudged(8), "8 before 9");
        assert_eq!(monitor.step(action(1)).code, 8);
        assert_eq!(monitor.step(grant(2, 0)).code, 0);
        assert_eq!(monitor.step(CLOSE).code, 0);
        assert_eq!(monitor.step(action(1)).code, 10, "10 before 8");
        assert_eq!((monitor.taken().len(), monitor.status()), (12, 'd'));
    }

    #[test]
    fn a_closed_monitor_answers_10_to_every_word() {
        let mut monitor = plus_everyone();
        monitor.step(action(0));
        assert_eq!(monitor.step(CLOSE).code, 0);
        let before = monitor.raw();
        for word in [action(0), action(9), grant(2, 0), revoke(0, 0), CLOSE, 0, u32::MAX] {
            assert_eq!(monitor.step(word), Outcome::unjudged(10));
        }
        assert_eq!(monitor.raw(), before);
    }

    #[test]
    fn grants_held_and_roles_not_held_alter_nothing() {
        let mut monitor = plus_everyone();
        let before = monitor.raw();
        assert_eq!(monitor.step(grant(0, 0)).code, 0);
        assert_eq!(monitor.step(revoke(2, 1)).code, 0);
        assert_eq!(monitor.raw(), before);
        assert_eq!(monitor.step(grant(2, 1)).code, 0);
        assert_eq!(monitor.raw().user_roles[..3], [1, 2, 2]);
        assert_eq!(monitor.step(revoke(1, 1)).code, 0);
        assert_eq!(monitor.raw().user_roles[..3], [1, 0, 2]);
    }

    #[test]
    fn the_workspace_speaks_of_what_was_judged() {
        let mut monitor = plus_everyone();
        let marked: Vec<u32> = (0..WORDS as u32 + 2).collect();
        let mut workspace = marked.clone();
        for word in [grant(2, 1), revoke(2, 1), action(3), 0] {
            monitor.event(word, &mut workspace);
            assert_eq!(workspace, marked);
        }
        let policy = monitor.policy().clone();
        let without_role = Taken { user: 2, held: BTreeSet::new() };
        let with_role = Taken { user: 0, held: BTreeSet::from([0]) };
        assert_eq!(monitor.event(action(2), &mut workspace), 9);
        assert_eq!(workspace[..WORDS], expected(&policy, &[without_role]));
        assert_eq!(monitor.event(action(0), &mut workspace), 0);
        assert_eq!(workspace[..WORDS], expected(&policy, &[with_role]));
        assert_eq!(workspace[WORDS..], marked[WORDS..]);
    }

    #[test]
    fn a_close_leaves_a_workspace_of_any_length() {
        for length in [0, 1, WORDS - 1, WORDS, WORDS + 2] {
            let mut monitor = plus_everyone();
            let mut workspace = vec![7; length];
            assert_eq!(monitor.event(CLOSE, &mut workspace), 11);
            assert_eq!(monitor.event(CLOSE | 1, &mut workspace), 7);
            assert_eq!(monitor.event(CLOSE | 1 << 23, &mut workspace), 7);
            monitor.step(action(0));
            assert_eq!(monitor.event(CLOSE, &mut workspace), 0);
            assert_eq!(monitor.event(CLOSE, &mut workspace), 10);
            assert_eq!(monitor.event(CLOSE | 1, &mut workspace), 10);
            assert!(workspace.iter().all(|word| *word == 7));
        }
    }

    /// One action of a user with role 0, or three actions of others with a role.
    fn one_or_three() -> Monitor<Taken> {
        let one = Term::Role(0);
        let other = || Term::not(Term::Role(0));
        let two = Term::join(Operator::Together, other(), other());
        let three = Term::join(Operator::Together, Term::Everyone, two);
        let words = Term::join(Operator::Either, one, three).words();
        Monitor::open(3, 2, &words, &[1, 2, 2]).expect("it opens")
    }

    #[test]
    fn the_letter_is_worked_out_anew_by_accepted_actions_alone() {
        let mut monitor = one_or_three();
        assert_eq!(monitor.status(), 'o');
        let mut left = |word: u32| (monitor.step(word).code, monitor.status());
        assert_eq!(left(CLOSE), (11, 'o'));
        assert_eq!(left(action(0)), (0, 'c'));
        assert_eq!(left(revoke(0, 0)), (0, 'c'), "what was noted stays");
        assert_eq!(left(action(0)), (9, 'c'));
        assert_eq!(left(action(3)), (7, 'c'));
        assert_eq!(left(action(1)), (0, 'o'), "two are too many for one and too few for three");
        assert_eq!(left(grant(0, 0)), (0, 'o'));
        assert_eq!(left(CLOSE), (11, 'o'));
        assert_eq!(left(action(2)), (0, 'c'));
        assert_eq!(left(CLOSE), (0, 'd'));
        assert_eq!(left(revoke(1, 1)), (10, 'd'));
    }

    #[test]
    fn status_and_close_follow_the_letter() {
        let taken = |users: &[usize]| -> Vec<Taken> {
            users.iter().map(|user| Taken { user: *user, held: BTreeSet::from([*user]) }).collect()
        };
        for (users, defined) in [(&[0][..], 'c'), (&[1], 'o'), (&[0, 1, 1], 'c'), (&[0, 0], 'o')] {
            for (letter, code) in [('c', 0), ('o', 11)] {
                let mut monitor = one_or_three().at(taken(users), 0, letter);
                assert_eq!((monitor.status(), monitor.defined()), (letter, defined));
                assert_eq!(monitor.step(CLOSE), Outcome::unjudged(code));
                assert_eq!(monitor.status(), if code == 0 { 'd' } else { letter });
            }
        }
    }

    #[test]
    fn an_action_does_not_look_at_the_letter_before() {
        for letter in ['c', 'o'] {
            let taken = vec![Taken { user: 1, held: BTreeSet::from([1]) }];
            let mut monitor = one_or_three().at(taken, 0, letter);
            assert_eq!((monitor.step(action(2)).code, monitor.status()), (0, 'o'));
            assert_eq!((monitor.step(action(0)).code, monitor.status()), (0, 'c'));
        }
    }

    /// One action of role 0 and one of role 1 by another user; both roles give actions 1 and 2, which
    /// lead from state 0 to 1 and on to 2, the final one.
    fn two_steps() -> Monitor<Taken> {
        let rows = [[6, 0, 0, 0, 0, 0, 0, 0], [6, 0, 0, 0, 0, 0, 0, 0]].concat();
        let workflow = [3, 2, 4, 0, 0, 1, 1, 1, 2, 2];
        let words = [0x09000000, 0x02000000, 0x02000001];
        let opened = Monitor::open_secure(3, 2, &words, &[1, 2, 0], (&rows, &workflow));
        opened.expect("it opens")
    }

    #[test]
    fn the_state_is_moved_by_accepted_actions_alone() {
        let mut monitor = two_steps();
        let mut answered = |word: u32| (monitor.step(word).code, monitor.state());
        assert_eq!(answered(numbered(2, 1)), (16, 0));
        assert_eq!(answered(numbered(0, 2)), (17, 0));
        assert_eq!(answered(numbered(0, 1)), (0, 1));
        assert_eq!(answered(numbered(0, 2)), (9, 1));
        assert_eq!(answered(CLOSE), (11, 1));
        assert_eq!(answered(numbered(1, 2)), (0, 2));
        assert_eq!(answered(numbered(1, 2)), (17, 2));
        assert_eq!(answered(CLOSE), (0, 2));
    }

    #[test]
    fn sixteen_and_seventeen_leave_the_workspace() {
        let mut monitor = two_steps();
        let mut workspace = vec![8; WORDS];
        for (word, code) in [(numbered(2, 1), 16), (numbered(2, 2), 16), (numbered(0, 2), 17)] {
            assert_eq!(monitor.event(word, &mut workspace), code);
            assert!(workspace.iter().all(|word| *word == 8));
        }
    }

    #[test]
    fn the_status_does_not_look_at_the_state() {
        let mut monitor = two_steps();
        monitor.step(numbered(0, 1));
        let taken = [monitor.taken(), &[Taken { user: 1, held: BTreeSet::from([1]) }]].concat();
        for (state, code) in [(1, 11), (2, 0)] {
            let mut monitor = monitor.clone().at(taken.clone(), state, 'c');
            assert_eq!((monitor.defined(), monitor.step(CLOSE).code), ('c', code));
        }
    }

    #[test]
    fn a_short_workspace_is_12_first() {
        let mut monitor = plus_everyone();
        let mut short = vec![3; WORDS - 1];
        for word in [0, action(0), action(3), grant(0, 1), revoke(0, 0), 5 << 24, u32::MAX] {
            assert_eq!(monitor.event(word, &mut short), 12, "{word:08x}");
        }
        assert_eq!(monitor.taken().len(), 0);
        assert!(short.iter().all(|word| *word == 3));
    }
}
