//! Permissions and workflow (02, "Permission sheet and order of work"; 004, sections 3.1 and 3.2), as
//! relations: which role gives which action, and which action leads from which state to which.

use std::collections::BTreeSet;

use crate::code::{self, Code};

/// Actions have the numbers below this one; no role gives another, and no transition has one.
pub const ACTIONS: u8 = 64;
/// The most states of a workflow.
pub const MOST_STATES: usize = 16;
/// The most transitions of a workflow.
pub const MOST_TRANSITIONS: usize = 64;

/// Permissions and workflow in bytes, as an opening and a case file are given them; not yet judged.
#[derive(Clone, Debug, Default, PartialEq, Eq)]
pub struct Given {
    /// Eight bytes a role.
    pub permissions: Vec<u8>,
    /// States, transitions, two bytes of final states, three bytes a transition.
    pub workflow: Vec<u8>,
}

/// A transition: an action leads from a state to the next one.
#[derive(Clone, Copy, Debug, Default, PartialEq, Eq, PartialOrd, Ord)]
pub struct Transition {
    /// The state that it leaves.
    pub state: u8,
    /// The action.
    pub action: u8,
    /// The state that it leads to.
    pub next: u8,
}

impl Transition {
    /// The transition with these three bytes.
    pub fn new([state, action, next]: [u8; 3]) -> Transition {
        Transition { state, action, next }
    }

    /// Its three bytes.
    pub fn bytes(self) -> [u8; 3] {
        [self.state, self.action, self.next]
    }
}

/// A workflow (02's work plan). It starts in state 0.
#[derive(Clone, Debug, PartialEq, Eq)]
pub struct Workflow {
    /// How many states are declared.
    pub states: u8,
    /// The final states.
    pub final_states: BTreeSet<u8>,
    /// The transitions, in the order in which they were given.
    pub transitions: Vec<Transition>,
}

/// Both, read.
#[derive(Clone, Debug, PartialEq, Eq)]
pub struct Secure {
    /// The permission assignment of Definition 1: pairs of a role and an action that it gives.
    pub permissions: BTreeSet<(usize, u8)>,
    /// The workflow.
    pub workflow: Workflow,
}

/// The places of the ones in some bytes, low byte first.
fn ones(bytes: &[u8]) -> impl Iterator<Item = u8> + '_ {
    let all = 0..8 * bytes.len();
    all.filter(|place| bytes[place / 8] >> (place % 8) & 1 == 1).map(|place| place as u8)
}

/// Which role gives which action, if there are eight bytes a role.
fn read_permissions(roles: usize, bytes: &[u8]) -> Option<BTreeSet<(usize, u8)>> {
    let rows = bytes.chunks(8).enumerate();
    let pairs = rows.flat_map(|(role, row)| ones(row).map(move |action| (role, action)));
    (bytes.len() == 8 * roles).then(|| pairs.collect())
}

/// Takes a workflow out of its bytes, if they have the length that their second one says.
fn split_workflow(bytes: &[u8]) -> Option<Workflow> {
    let [states, count, low, high, rest @ ..] = bytes else {
        return None;
    };
    let transitions = rest.chunks_exact(3).map(|arrow| [arrow[0], arrow[1], arrow[2]]);
    (rest.len() == 3 * usize::from(*count)).then(|| Workflow {
        states: *states,
        final_states: ones(&[*low, *high]).collect(),
        transitions: transitions.map(Transition::new).collect(),
    })
}

impl Workflow {
    /// Whether the counts are in range, all states are declared, all actions are below 64, and no two
    /// transitions have the same state and action.
    fn is_accepted(&self) -> bool {
        let declared = |state: &u8| *state < self.states;
        let fits = |arrow: &Transition| {
            declared(&arrow.state) && declared(&arrow.next) && arrow.action < ACTIONS
        };
        let left: BTreeSet<(u8, u8)> =
            self.transitions.iter().map(|arrow| (arrow.state, arrow.action)).collect();
        (1..=MOST_STATES).contains(&self.states.into())
            && self.transitions.len() <= MOST_TRANSITIONS
            && self.final_states.iter().all(declared)
            && self.transitions.iter().all(fits)
            && left.len() == self.transitions.len()
    }

    /// Where an action leads from a state.
    pub fn next(&self, state: u8, action: u8) -> Option<u8> {
        let mut leaving = self.transitions.iter().filter(|arrow| arrow.state == state);
        leaving.find(|arrow| arrow.action == action).map(|arrow| arrow.next)
    }
}

impl Secure {
    /// Reads both, for so many roles; none where neither is given.
    ///
    /// # Errors
    /// 19 if one alone is given, or one is not as it must be.
    pub fn read(roles: usize, permissions: &[u8], workflow: &[u8]) -> Result<Option<Secure>, Code> {
        match (permissions, workflow) {
            ([], []) => Ok(None),
            ([], _) | (_, []) => Err(code::SECURE),
            _ => Secure::of(roles, permissions, workflow).ok_or(code::SECURE).map(Some),
        }
    }

    /// Both, if they are as they must be.
    fn of(roles: usize, permissions: &[u8], workflow: &[u8]) -> Option<Secure> {
        let permissions = read_permissions(roles, permissions)?;
        let workflow = split_workflow(workflow).filter(Workflow::is_accepted)?;
        Some(Secure { permissions, workflow })
    }

    /// Where an action leads from a state, tried by a user who holds these roles.
    ///
    /// # Errors
    /// 16 if none of the roles gives the action, then 17 if no transition has it in that state.
    pub fn step(&self, held: &BTreeSet<usize>, state: u8, action: u8) -> Result<u8, Code> {
        if !held.iter().any(|role| self.permissions.contains(&(*role, action))) {
            return Err(code::NOT_AUTHORIZED);
        }
        self.workflow.next(state, action).ok_or(code::NO_TRANSITION)
    }
}

#[cfg(test)]
mod tests {
    use super::*;

    /// Two states; action 1 leads from the first to the second, which is final.
    const ONE_STEP: [u8; 7] = [2, 1, 2, 0, 0, 1, 1];

    /// Action 1 and action 63 for the only role.
    const ROW: [u8; 8] = [2, 0, 0, 0, 0, 0, 0, 128];

    /// The number with which one role's permissions and a workflow are read.
    fn number(permissions: &[u8], workflow: &[u8]) -> Code {
        Secure::read(1, permissions, workflow).err().unwrap_or(code::ACCEPTED)
    }

    #[test]
    fn both_or_neither_are_given() {
        assert_eq!(Secure::read(1, &[], &[]), Ok(None));
        assert_eq!(
            (number(&ROW, &[]), number(&[], &ONE_STEP), number(&ROW, &ONE_STEP)),
            (19, 19, 0)
        );
        let read = Secure::read(1, &ROW, &ONE_STEP).expect("it is accepted").expect("it is given");
        assert_eq!(read.permissions, BTreeSet::from([(0, 1), (0, 63)]));
        assert_eq!((read.workflow.next(0, 1), read.workflow.next(1, 1)), (Some(1), None));
    }

    #[test]
    fn wrong_lengths_are_19() {
        assert_eq!(number(&ROW[..7], &ONE_STEP), 19);
        assert_eq!(number(&[ROW, ROW].concat(), &ONE_STEP), 19);
        for length in 1..7 {
            assert_eq!(number(&ROW, &ONE_STEP[..length]), 19, "{length}");
        }
        assert_eq!(number(&ROW, &[&ONE_STEP[..], &[0]].concat()), 19);
    }

    #[test]
    fn workflows_at_their_edges() {
        let accepted: [&[u8]; 5] = [
            &[1, 0, 0, 0],
            &[1, 0, 1, 0],
            &[16, 0, 0, 128],
            &[16, 1, 0, 0, 15, 63, 15],
            &[1, 1, 0, 0, 0, 63, 0],
        ];
        let refused: [&[u8]; 8] = [
            &[0, 0, 0, 0],
            &[17, 0, 0, 0],
            &[1, 0, 2, 0],
            &[15, 0, 0, 128],
            &[2, 1, 0, 0, 2, 0, 0],
            &[2, 1, 0, 0, 0, 0, 2],
            &[2, 1, 0, 0, 0, 64, 0],
            &[2, 2, 0, 0, 0, 5, 1, 0, 5, 1],
        ];
        assert!(accepted.iter().all(|workflow| number(&ROW, workflow) == 0));
        assert!(refused.iter().all(|workflow| number(&ROW, workflow) == 19));
    }

    #[test]
    fn sixty_four_transitions_and_one_more() {
        let arrows = (0..65u8).flat_map(|place| [place % 16, place / 16, 0]);
        let with = |count: u8| -> Vec<u8> {
            [16, count, 1, 0]
                .into_iter()
                .chain(arrows.clone().take(3 * usize::from(count)))
                .collect()
        };
        assert_eq!((number(&ROW, &with(64)), number(&ROW, &with(65))), (0, 19));
    }

    #[test]
    fn the_roles_that_are_held_decide_before_the_state() {
        let read = Secure::read(1, &ROW, &ONE_STEP).expect("it is accepted").expect("it is given");
        let (none, held) = (BTreeSet::new(), BTreeSet::from([0]));
        assert_eq!(read.step(&none, 0, 1), Err(16));
        assert_eq!(read.step(&held, 0, 1), Ok(1));
        assert_eq!((read.step(&none, 1, 1), read.step(&held, 1, 1)), (Err(16), Err(17)));
        assert_eq!((read.step(&held, 0, 63), read.step(&held, 0, 64)), (Err(17), Err(16)));
        assert_eq!(read.step(&held, 0, 255), Err(16));
    }
}
