//! Instances given as raw data with noted bits, and which of them are malformed (number 15).
//! One that is not is a monitor like any other, and [`Monitor`] has its rules; what an action met
//! goes by the bits as they are (01's table, "the first row that fits decides"), and the status by the
//! letter as it is (02, E6).

use std::collections::BTreeSet;

use crate::code::{self, Code};
use crate::monitor::{Kept, Monitor, Outcome, MOST_ACTIONS};
use crate::policy::{self, Term, MOST_ROLES, MOST_USERS, MOST_WORDS};
use crate::search::Acted;
use crate::secure::{Secure, Transition, MOST_TRANSITIONS};
use crate::workspace;

/// How many bits the compared program's struct has for the numbers of users and roles, for the user of
/// an action and for the present state. Here every number has room; inputs keep to what can be lent.
pub const WIDE_BITS: usize = 32;
/// How many bits it has for the numbers of words, of actions, of states and of transitions, for the
/// mark and for the letter.
pub const NARROW_BITS: usize = 8;
/// The marks of a closed instance that may be lent to it.
pub const CLOSED_MARKS: [u8; 4] = [1, 2, 128, 255];

/// A taken action with its noted bits: bit i says whether the user met the unit term at word i.
#[derive(Clone, Copy, Debug, PartialEq, Eq, Hash)]
pub struct RawAction {
    /// The user who acted.
    pub user: usize,
    /// The noted bits.
    pub met: u32,
}

impl RawAction {
    /// What an unused place holds.
    pub const BLANK: RawAction = RawAction { user: 0, met: 0 };
}

impl Acted for RawAction {
    fn user(&self) -> usize {
        self.user
    }

    fn meets(&self, word: usize, _unit: &Term) -> bool {
        self.met >> word & 1 == 1
    }
}

impl Kept for RawAction {
    fn taken(policy: &Term, user: usize, held: &BTreeSet<usize>) -> RawAction {
        RawAction { user, met: policy::met_bits(policy, user, held) }
    }

    fn bits(&self, _policy: &Term) -> u32 {
        self.met
    }
}

/// An instance as raw data; nothing is said about whether any run reaches it.
#[derive(Clone, Copy, Debug, PartialEq, Eq)]
pub struct RawInstance {
    /// The number of users.
    pub users: usize,
    /// The number of roles.
    pub roles: usize,
    /// The number of policy words.
    pub length: usize,
    /// The policy words; those past the length are to be zero.
    pub policy: [u32; MOST_WORDS],
    /// The roles of each user, bit r for role r; rows past the users are to be zero.
    pub user_roles: [u16; MOST_USERS],
    /// The number of taken actions.
    pub count: usize,
    /// The taken actions; places past their number are to be zero.
    pub actions: [RawAction; MOST_ACTIONS],
    /// Whether the instance is closed: 0 is open, every other value closed.
    pub closed: u8,
    /// The letter of the status.
    pub letter: u8,
    /// The actions that each role gives, bit a for action a; rows past the roles are to be zero.
    pub permissions: [u64; MOST_ROLES],
    /// The number of states; 0 where neither permissions nor a workflow are given, and then all of
    /// both is to be zero.
    pub states: u8,
    /// The final states, bit s for state s.
    pub final_states: u16,
    /// The number of transitions.
    pub arrows: u8,
    /// The transitions; those past their number are to be zero.
    pub transitions: [Transition; MOST_TRANSITIONS],
    /// The present state.
    pub state: usize,
}

impl RawInstance {
    /// The blank instance, all zero, that a refused opening hands back.
    pub const BLANK: RawInstance = RawInstance {
        users: 0,
        roles: 0,
        length: 0,
        policy: [0; MOST_WORDS],
        user_roles: [0; MOST_USERS],
        count: 0,
        actions: [RawAction::BLANK; MOST_ACTIONS],
        closed: 0,
        letter: 0,
        permissions: [0; MOST_ROLES],
        states: 0,
        final_states: 0,
        arrows: 0,
        transitions: [Transition { state: 0, action: 0, next: 0 }; MOST_TRANSITIONS],
        state: 0,
    };

    /// Opens an instance with neither permissions nor a workflow, as [`RawInstance::open_secure`].
    pub fn open(
        users: usize,
        roles: usize,
        words: &[u32],
        user_roles: &[u16],
    ) -> (Code, RawInstance) {
        RawInstance::open_secure(users, roles, words, user_roles, (&[], &[]))
    }

    /// Opens an instance: 0 and the instance, or the number of the refusal and the blank instance.
    pub fn open_secure(
        users: usize,
        roles: usize,
        words: &[u32],
        user_roles: &[u16],
        given: (&[u8], &[u8]),
    ) -> (Code, RawInstance) {
        match Monitor::<RawAction>::open_secure(users, roles, words, user_roles, given) {
            Ok(monitor) => (code::ACCEPTED, monitor.raw()),
            Err(refusal) => (refusal, RawInstance::BLANK),
        }
    }

    /// The monitor that this is, whose rules are then those of every other.
    ///
    /// # Errors
    /// 15 if it is malformed: exactly the list of 01 and 02's E4 and E6.
    pub fn monitor(&self) -> Result<Monitor<RawAction>, Code> {
        let monitor = self.opened().ok_or(code::INSTANCE_MALFORMED)?;
        let well_formed = self.count <= MOST_ACTIONS
            && self.users_are_declared()
            && self.bits_are_at(monitor.policy().unit_mask())
            && self.unused_is_zero()
            && self.state_is_declared()
            && self.letter_fits();
        let letter = char::from(self.letter);
        well_formed
            .then(|| monitor.at(self.taken().to_vec(), self.state as u8, letter))
            .ok_or(code::INSTANCE_MALFORMED)
    }

    /// The monitor as opened, if counts, policy, rows of roles, permissions and workflow would not be
    /// refused.
    fn opened(&self) -> Option<Monitor<RawAction>> {
        let words = self.policy.get(..self.length)?;
        let user_roles = self.user_roles.get(..self.users)?;
        let (permissions, workflow) = self.given()?;
        let given = (&permissions[..], &workflow[..]);
        Monitor::open_secure(self.users, self.roles, words, user_roles, given).ok()
    }

    /// Whether all that belongs to permissions and workflow is zero, so that neither is given.
    fn is_bare(&self) -> bool {
        let RawInstance { permissions, transitions, .. } = RawInstance::BLANK;
        self.permissions == permissions
            && self.transitions == transitions
            && (self.states, self.final_states, self.arrows, self.state) == (0, 0, 0, 0)
    }

    /// Permissions and workflow as the bytes that an opening would be given for them, if there are as
    /// many rows and transitions as the counts say.
    pub fn given(&self) -> Option<(Vec<u8>, Vec<u8>)> {
        if self.is_bare() {
            return Some((vec![], vec![]));
        }
        let rows = self.permissions.get(..self.roles)?;
        let transitions = self.transitions.get(..self.arrows.into())?;
        let mut workflow = vec![self.states, self.arrows];
        workflow.extend(self.final_states.to_le_bytes());
        workflow.extend(transitions.iter().flat_map(|arrow| arrow.bytes()));
        Some((rows.iter().flat_map(|row| row.to_le_bytes()).collect(), workflow))
    }

    /// Holds these permissions and this workflow from now on.
    pub fn keep_secure(&mut self, Secure { permissions, workflow }: &Secure) {
        for (role, action) in permissions {
            self.permissions[*role] |= 1 << action;
        }
        self.states = workflow.states;
        self.final_states = workflow.final_states.iter().map(|state| 1u16 << state).sum();
        self.arrows = workflow.transitions.len() as u8;
        self.transitions[..workflow.transitions.len()].copy_from_slice(&workflow.transitions);
    }

    /// Whether the workflow has its present state; one that is not given is in state 0.
    fn state_is_declared(&self) -> bool {
        self.is_bare() || self.state < self.states.into()
    }

    /// Whether the letter is one that the mark and the number of actions allow.
    fn letter_fits(&self) -> bool {
        let allowed: &[u8] = match (self.closed, self.count) {
            (0, 0) => b"o",
            (0, _) => b"oc",
            _ => b"d",
        };
        allowed.contains(&self.letter)
    }

    /// The same with this letter.
    pub fn with_letter(&self, letter: u8) -> RawInstance {
        RawInstance { letter, ..*self }
    }

    /// The same with the letter that 01 defines for its mark and its actions; one that is malformed
    /// for another reason stays as it is.
    pub fn with_defined_letter(&self) -> RawInstance {
        let plain = self.with_letter(if self.closed == 0 { b'o' } else { b'd' });
        let defined = plain.monitor().map(|monitor| monitor.defined());
        self.with_letter(defined.map_or(self.letter, |letter| letter as u8))
    }

    /// The taken actions.
    fn taken(&self) -> &[RawAction] {
        &self.actions[..self.count]
    }

    /// Whether the users of all taken actions are declared.
    fn users_are_declared(&self) -> bool {
        self.taken().iter().all(|action| action.user < self.users)
    }

    /// Whether the noted bits of all taken actions are inside this mask.
    fn bits_are_at(&self, mask: u32) -> bool {
        self.taken().iter().all(|action| action.met & !mask == 0)
    }

    /// Whether unused places, policy words, rows of roles, rows of actions and transitions are zero.
    fn unused_is_zero(&self) -> bool {
        self.actions[self.count..].iter().all(|action| *action == RawAction::BLANK)
            && self.policy[self.length..].iter().all(|word| *word == 0)
            && self.user_roles[self.users..].iter().all(|row| *row == 0)
            && self.permissions[self.roles..].iter().all(|row| *row == 0)
            && self.transitions[self.arrows.into()..].iter().all(|arrow| arrow.bytes() == [0; 3])
    }

    /// Keeps what an accepted event left of the monitor; a refused one leaves every byte as it was.
    fn keep(&mut self, code: Code, monitor: &Monitor<RawAction>) {
        if code == code::ACCEPTED {
            *self = monitor.raw();
        }
    }

    /// One event, without a workspace: 15, then as [`Monitor::step`].
    pub fn step(&mut self, word: u32) -> Outcome<RawAction> {
        let mut monitor = match self.monitor() {
            Ok(monitor) => monitor,
            Err(refusal) => return Outcome::unjudged(refusal),
        };
        let outcome = monitor.step(word);
        self.keep(outcome.code, &monitor);
        outcome
    }

    /// The status.
    ///
    /// # Errors
    /// 15 if the instance is malformed.
    pub fn status(&self) -> Result<char, Code> {
        Ok(self.monitor()?.status())
    }

    /// One event with its workspace: 12, but for words of kind 4, then 15, then as [`Monitor::step`].
    pub fn event(&mut self, word: u32, workspace: &mut [u32]) -> Code {
        let admitted = workspace::check_for(word, workspace).and_then(|()| self.monitor());
        let mut monitor = match admitted {
            Ok(monitor) => monitor,
            Err(refusal) => return refusal,
        };
        let code = monitor.event(word, workspace);
        self.keep(code, &monitor);
        code
    }

    /// Who may act, with its workspace, as [`Monitor::enabled`].
    ///
    /// # Errors
    /// 12, then 15.
    pub fn enabled(&self, action: u8, workspace: &mut [u32]) -> Result<u16, Code> {
        workspace::check(workspace)?;
        self.monitor()?.enabled(action, workspace)
    }
}

#[cfg(test)]
mod tests {
    use super::*;
    use crate::examples::{action, grant, CLOSE};
    use crate::generate::{instances, Random};
    use crate::workspace::WORDS;

    #[test]
    fn each_malformed_instance_is_15() {
        let mut random = Random::new(15);
        for _ in 0..50 {
            for (name, raw) in instances::malformed(&mut random) {
                assert_eq!(raw.monitor().err(), Some(15), "{name}: {raw:?}");
                let mut after = raw;
                let mut workspace = vec![6; WORDS];
                for word in [action(0), CLOSE, 0] {
                    assert_eq!(after.event(word, &mut workspace), 15, "{name}");
                }
                assert_eq!(after.event(CLOSE, &mut []), 15, "{name}");
                assert_eq!(after.status(), Err(15));
                assert_eq!(after.enabled(1, &mut workspace), Err(15));
                assert_eq!(after, raw);
                assert!(workspace.iter().all(|word| *word == 6));
            }
        }
    }

    #[test]
    fn odd_instances_are_well_formed() {
        let mut random = Random::new(16);
        for (name, raw) in instances::odd_but_well_formed(&mut random) {
            assert!(raw.monitor().is_ok(), "{name}");
        }
        for _ in 0..500 {
            let raw = instances::well_formed(&mut random, 31, 12);
            assert!(raw.monitor().is_ok(), "{raw:?}");
        }
    }

    #[test]
    fn a_short_workspace_comes_before_15() {
        let mut raw = RawInstance::BLANK;
        assert_eq!(raw.event(action(0), &mut vec![0; WORDS - 1]), 12);
        assert_eq!(raw.event(0, &mut vec![0; WORDS - 1]), 12);
        assert_eq!(raw.enabled(1, &mut vec![0; WORDS - 1]), Err(12));
        assert_eq!(raw.event(action(0), &mut vec![0; WORDS]), 15);
        assert_eq!(raw.event(CLOSE, &mut vec![0; WORDS - 1]), 15);
        assert_eq!(raw.event(CLOSE | 1, &mut []), 15);
    }

    /// A letter with a mark and a number of actions, as 02 lists what is wrong with them.
    fn letter_is_wrong(letter: u8, closed: bool, actions: usize) -> bool {
        let none_of_three = !['o', 'c', 'd'].contains(&char::from(letter));
        let closed_alone = (letter == b'd') != closed;
        let early = letter != b'o' && !closed && actions == 0;
        none_of_three || closed_alone || early
    }

    #[test]
    fn letters_fit_the_mark_and_the_actions() {
        let (_, opened) = RawInstance::open(1, 1, &[0x05000000, 0x01000000], &[1]);
        assert_eq!((opened.closed, opened.letter), (0, b'o'));
        for (letter, closed) in (0..=u8::MAX).flat_map(|letter| [0, 1, 2, 255].map(|m| (letter, m)))
        {
            for count in [0, 1, 12] {
                let raw = RawInstance { letter, closed, count, ..opened };
                let wrong = letter_is_wrong(letter, closed != 0, count);
                let expected = if wrong { Err(15) } else { Ok(char::from(letter)) };
                assert_eq!(raw.status(), expected, "{letter} {closed} {count}");
            }
        }
    }

    #[test]
    fn the_defined_letter_is_that_of_the_actions() {
        let (_, mut raw) = RawInstance::open(1, 1, &[0x01000000], &[1]);
        let letters = |raw: RawInstance| {
            let closed = RawInstance { closed: 7, ..raw };
            [raw, closed].map(|raw| char::from(raw.with_defined_letter().letter))
        };
        assert_eq!(letters(raw), ['o', 'd']);
        raw.count = 1;
        assert_eq!(letters(raw), ['o', 'd']);
        raw.actions[0].met = 1;
        assert_eq!(letters(raw), ['c', 'd']);
        let malformed = RawInstance { roles: 0, letter: 9, ..raw };
        assert_eq!(malformed.with_defined_letter(), malformed);
    }

    #[test]
    fn refused_openings_hand_back_the_blank_instance() {
        assert_eq!(RawInstance::open(17, 1, &[0x01000000], &[1]), (5, RawInstance::BLANK));
        assert_eq!(RawInstance::open(1, 1, &[0x01000000], &[2]), (6, RawInstance::BLANK));
        let (code, raw) = RawInstance::open(1, 1, &[0x01000000], &[1]);
        assert_eq!((code, raw.users, raw.length, raw.user_roles[0]), (0, 1, 1, 1));
    }

    #[test]
    fn bits_noted_before_are_followed_and_new_ones_go_by_roles() {
        let (_, mut raw) = RawInstance::open(2, 1, &[0x08000000, 0x02000000, 0x02000000], &[0, 1]);
        raw.count = 1;
        raw.actions[0] = RawAction { user: 0, met: 0b110 };
        assert_eq!(raw.step(action(0)).code, 9);
        assert_eq!(raw.step(grant(0, 0)).code, 0);
        assert_eq!(raw.step(action(0)).code, 0);
        assert_eq!(raw.actions[1], RawAction { user: 0, met: 0b110 });
        assert_eq!(raw.status(), Ok('c'));
        raw.actions[0].met = 0;
        assert_eq!(raw.status(), Ok('c'), "the letter is followed");
        assert_eq!(raw.with_defined_letter().step(CLOSE).code, 11);
        assert_eq!((raw.step(CLOSE).code, raw.closed, raw.letter), (0, 1, b'd'));
    }

    #[test]
    fn a_closed_instance_that_does_not_satisfy_is_closed() {
        let (_, mut raw) = RawInstance::open(1, 1, &[0x01000000], &[1]);
        for mark in 1..=u8::MAX {
            (raw.closed, raw.letter) = (mark, b'd');
            let before = raw;
            assert_eq!(raw.status(), Ok('d'));
            assert_eq!(raw.step(action(0)).code, 10);
            assert_eq!(raw, before);
        }
    }
}
