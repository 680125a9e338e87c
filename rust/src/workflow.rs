//! The order of work.

use crate::raw::{self, Transition, MAX_STATES, MAX_TRANSITIONS};
use crate::secure::{action_number, WorkflowFault};

/// A workflow: 1 to 16 states, numbered from 0, up to 64 transitions between them, and the states in
/// which it may end (document 004, section 3.1; document 02: work plan).
///
/// It starts in state 0. An accepted action takes the transition of its number from the present state;
/// where there is none, the action is refused with 17. A close needs a final state, so a workflow
/// without one never closes.
#[derive(Clone, Copy, Debug, PartialEq, Eq, Hash)]
pub struct Workflow {
    raw: raw::Workflow,
}

impl Workflow {
    /// A workflow of this number of states, with no transition and no final state.
    ///
    /// # Errors
    /// [`States`](WorkflowFault::States) if it is not 1 to 16.
    pub fn new(states: u8) -> Result<Workflow, WorkflowFault> {
        match usize::from(states) {
            1..=MAX_STATES => {
                Ok(Workflow { raw: raw::Workflow { states, ..raw::Workflow::BLANK } })
            }
            _ => Err(WorkflowFault::States(states)),
        }
    }

    /// The same with one transition more: in this state this action leads to the next state, which may
    /// be the same.
    ///
    /// # Errors
    /// The first that applies of [`State`](WorkflowFault::State) if there is no such state or next
    /// state, [`Action`](WorkflowFault::Action) if the action is above 63,
    /// [`Duplicate`](WorkflowFault::Duplicate) if that state has a transition with that action, even to
    /// the same next state, and [`Transitions`](WorkflowFault::Transitions) if there are 64.
    pub fn transition(
        mut self,
        state: u8,
        action: u8,
        next: u8,
    ) -> Result<Workflow, WorkflowFault> {
        let own = Transition {
            state: self.declared(state)?,
            next: self.declared(next)?,
            action: action_number(action)?,
        };
        if self.transitions().iter().any(|other| (other.state, other.action) == (state, action)) {
            return Err(WorkflowFault::Duplicate { state, action });
        }
        let place = self.raw.transitions.get_mut(usize::from(self.raw.count));
        *place.ok_or(WorkflowFault::Transitions)? = own;
        self.raw.count += 1;
        Ok(self)
    }

    /// The same, but it may end in this state too.
    ///
    /// # Errors
    /// [`State`](WorkflowFault::State) if there is no such state.
    pub fn finish_in(mut self, state: u8) -> Result<Workflow, WorkflowFault> {
        self.raw.final_states |= 1 << self.declared(state)?;
        Ok(self)
    }

    /// The number of states.
    pub fn states(&self) -> u8 {
        self.raw.states
    }

    /// The transitions, in the order in which they were put in.
    pub fn transitions(&self) -> &[Transition] {
        &self.raw.transitions[..MAX_TRANSITIONS.min(self.raw.count.into())]
    }

    /// The final states, bit s for state s.
    pub fn final_states(&self) -> u16 {
        self.raw.final_states
    }

    /// As an opening takes it: a byte that counts the states, one that counts the transitions, two, low
    /// first, with a bit for each final state, then three a transition.
    pub fn to_bytes(&self) -> Vec<u8> {
        let [low, high] = self.raw.final_states.to_le_bytes();
        let mut bytes = vec![self.raw.states, self.raw.count, low, high];
        bytes.extend(self.transitions().iter().flat_map(|own| [own.state, own.action, own.next]));
        bytes
    }

    /// The state, if there is such a one.
    fn declared(&self, state: u8) -> Result<u8, WorkflowFault> {
        if state < self.raw.states {
            Ok(state)
        } else {
            Err(WorkflowFault::State(state))
        }
    }
}
