//! The workflow: read, tested and asked with one pass over its transitions each.

/// A transition.
#[derive(Clone, Copy, Debug, Default, PartialEq, Eq)]
#[repr(C)]
pub struct Transition {
    /// The state that it leaves.
    pub state: u8,
    /// The action.
    pub action: u8,
    /// The state that it leads to.
    pub next: u8,
}

/// A workflow; one that is not given is all zero.
#[derive(Clone, Copy, Debug, PartialEq, Eq)]
#[repr(C)]
pub struct Workflow {
    /// The transitions.
    pub transitions: [Transition; 64],
    /// The final states.
    pub final_states: u16,
    /// How many states.
    pub states: u8,
    /// How many transitions.
    pub count: u8,
}

impl Default for Workflow {
    fn default() -> Workflow {
        let transitions = [Transition::default(); 64];
        Workflow { transitions, final_states: 0, states: 0, count: 0 }
    }
}

/// Whether all of some transitions are zero.
#[inline]
fn are_zero(transitions: &[Transition]) -> bool {
    let bits = |all: u8, own: &Transition| all | own.state | own.action | own.next;
    transitions.iter().fold(0, bits) == 0
}

impl Workflow {
    /// The workflow that these bytes say, if it is accepted.
    pub fn read(bytes: &[u8]) -> Option<Workflow> {
        let [states, count, low, high, rest @ ..] = bytes else {
            return None;
        };
        let (arrows, past) = rest.as_chunks::<3>();
        if arrows.len() != usize::from(*count) || !past.is_empty() || *states == 0 || *count > 64 {
            return None;
        }
        let final_states = u16::from_le_bytes([*low, *high]);
        let mut workflow =
            Workflow { final_states, states: *states, count: *count, ..Workflow::default() };
        for (own, [state, action, next]) in workflow.transitions.iter_mut().zip(arrows) {
            *own = Transition { state: *state, action: *action, next: *next };
        }
        workflow.is_well_formed().then_some(workflow)
    }

    /// Whether nothing of it is given.
    #[inline]
    pub fn is_zero(&self) -> bool {
        self.final_states == 0 && self.count == 0 && are_zero(&self.transitions)
    }

    /// Whether one that has a state is as it must be.
    #[inline]
    pub fn is_well_formed(&self) -> bool {
        let Some((used, past)) = self.transitions.split_at_checked(self.count.into()) else {
            return false;
        };
        if self.states > 16 || u32::from(self.final_states) >> self.states != 0 {
            return false;
        }
        let (mut seen, mut fits) = ([0u64; 16], true);
        for own in used {
            let (row, bit) = (&mut seen[usize::from(own.state & 15)], 1 << (own.action & 63));
            fits &= own.state.max(own.next) < self.states && own.action < 64 && *row & bit == 0;
            *row |= bit;
        }
        fits && are_zero(past)
    }

    /// Where an action leads from a state.
    #[inline]
    pub fn next(&self, state: u32, action: u8) -> Option<u32> {
        let used = &self.transitions[..usize::from(self.count).min(64)];
        let mut leaving = used.iter().filter(|own| u32::from(own.state) == state);
        leaving.find(|own| own.action == action).map(|own| own.next.into())
    }

    /// Whether it may end in a state; one that is not given always may.
    #[inline]
    pub fn may_end(&self, state: u32) -> bool {
        self.states == 0 || self.final_states >> (state & 15) & 1 == 1
    }
}
