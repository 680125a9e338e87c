//! The bytes of permissions and of a workflow: what they say, or why they are out of form (number 19).

use crate::file::{Case, Secure};
use crate::monitor::{MOST_PERMITTED, MOST_STATES, MOST_TRANSITIONS};
use crate::names::bits;

/// The bytes of a role's permissions.
const ROW: usize = 8;
/// The bytes of a workflow before its transitions.
const HEAD: usize = 4;
/// The bytes of a transition.
const TRANSITION: usize = 3;

/// A workflow: how many states it has, bit s for each final state s, and for each transition its state,
/// action and next state.
#[derive(Clone, Debug, Default, PartialEq, Eq)]
pub struct Workflow {
    /// The states.
    pub states: u8,
    /// The final states.
    pub final_states: u16,
    /// The transitions.
    pub transitions: Vec<[u8; TRANSITION]>,
}

/// For each role the actions that it gives, bit a for action a.
///
/// # Errors
/// Why the bytes do not say that.
pub fn rows(bytes: &[u8], roles: u8) -> Result<Vec<u64>, String> {
    let due = ROW * usize::from(roles);
    if bytes.len() != due {
        return Err(format!("permissions of {} bytes, not {due} for {roles} roles", bytes.len()));
    }
    let row = |bytes: &[u8]| bytes.iter().rev().fold(0, |row, byte| row << 8 | u64::from(*byte));
    Ok(bytes.chunks_exact(ROW).map(row).collect())
}

/// The bytes of permissions.
pub fn row_bytes(rows: &[u64]) -> Vec<u8> {
    rows.iter().flat_map(|row| row.to_le_bytes()).collect()
}

/// The workflow that bytes say.
///
/// # Errors
/// Why they say none.
pub fn workflow(bytes: &[u8]) -> Result<Workflow, String> {
    let length = bytes.len();
    let [states, count, low, high, ref rest @ ..] = *bytes else {
        return Err(format!("a workflow of {length} bytes, fewer than {HEAD}"));
    };
    if usize::from(count) > MOST_TRANSITIONS {
        return Err(format!("{count} transitions, more than {MOST_TRANSITIONS}"));
    }
    let due = HEAD + TRANSITION * usize::from(count);
    if length != due {
        return Err(format!("a workflow of {length} bytes, not {due} for {count} transitions"));
    }
    let transitions = rest.chunks_exact(TRANSITION).map(|three| [three[0], three[1], three[2]]);
    let final_states = u16::from_le_bytes([low, high]);
    let workflow = Workflow { states, final_states, transitions: transitions.collect() };
    workflow.fault().map_or(Ok(workflow), Err)
}

impl Workflow {
    /// The bytes that say it.
    pub fn bytes(&self) -> Vec<u8> {
        let [low, high] = self.final_states.to_le_bytes();
        let head = [self.states, self.transitions.len() as u8, low, high];
        [&head[..], &self.transitions.concat()].concat()
    }

    /// What is out of form, but for the number of transitions.
    fn fault(&self) -> Option<String> {
        let states = self.states;
        if !(1..=MOST_STATES).contains(&usize::from(states)) {
            return Some(format!("{states} states, not 1 to {MOST_STATES}"));
        }
        if let Some(state) = bits(self.final_states.into()).find(|state| *state >= states.into()) {
            return Some(format!("final state {state} of {states} states"));
        }
        let places = 0..self.transitions.len();
        places.into_iter().find_map(|place| self.transition_fault(place))
    }

    /// What is out of form with the transition at a place.
    fn transition_fault(&self, place: usize) -> Option<String> {
        let states = self.states;
        let own @ [state, action, next] = self.transitions[place];
        let same = |[other, with, _]: &[u8; TRANSITION]| [*other, *with] == own[..2];
        if let Some(state) = [state, next].into_iter().find(|state| *state >= states) {
            return Some(format!("state {state} of {states} states, in transition {place}"));
        }
        if u32::from(action) > MOST_PERMITTED {
            return Some(format!("action {action}, above {MOST_PERMITTED}, in transition {place}"));
        }
        let first = self.transitions[..place].iter().position(same)?;
        Some(format!("state {state} with action {action} in transitions {first} and {place}"))
    }
}

/// The permissions and the workflow of a case, if they are given.
///
/// # Errors
/// Why they would be refused with 19.
pub fn read(case: &Case) -> Result<Option<(Vec<u64>, Workflow)>, String> {
    let Secure { permissions, workflow } = case.secure.clone().unwrap_or_default();
    match (permissions.is_empty(), workflow.is_empty()) {
        (true, true) => Ok(None),
        (true, false) => Err("a workflow without permissions".to_string()),
        (false, true) => Err("permissions without a workflow".to_string()),
        (false, false) => Ok(Some((rows(&permissions, case.roles)?, self::workflow(&workflow)?))),
    }
}
