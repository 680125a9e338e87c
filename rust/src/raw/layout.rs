//! A monitor in memory: the structs of the C header, field by field, and the bytes that it is stored
//! in.

use std::mem::{align_of, offset_of, size_of};

/// The number of the layout below, another one whenever a field comes, goes, moves or means
/// something else. Keep it beside stored bytes, and reload only what was stored under it.
pub const LAYOUT: u32 = 4;

/// The most words that a policy may have.
pub const MAX_WORDS: usize = 31;

/// The most users that may be declared.
pub const MAX_USERS: usize = 16;

/// The most roles that may be declared.
pub const MAX_ROLES: usize = 16;

/// The most actions that are taken, and that a multiset may have.
pub const MAX_ACTIONS: usize = 12;

/// The most states that a workflow may have.
pub const MAX_STATES: usize = 16;

/// The most transitions that a workflow may have.
pub const MAX_TRANSITIONS: usize = 64;

/// How many numbers of actions permissions and transitions may name: 0 to 63.
pub const ACTION_NUMBERS: usize = 64;

/// Who holds which roles, which actions these give, and the counts. Rows past the users and past the
/// roles are zero; so are all permissions if none are given.
#[repr(C)]
#[derive(Clone, Copy, Debug, Default, PartialEq, Eq, Hash)]
pub struct Configuration {
    /// The actions that each role gives, bit a for action a.
    pub permissions: [u64; MAX_ROLES],
    /// The roles that each user holds, bit r for role r.
    pub user_roles: [u16; MAX_USERS],
    /// The number of users.
    pub users: u32,
    /// The number of roles.
    pub roles: u32,
}

/// A taken action.
#[repr(C)]
#[derive(Clone, Copy, Debug, Default, PartialEq, Eq, Hash)]
pub struct Action {
    /// The user who acted.
    pub user: u32,
    /// The unit terms that the user met when the action was taken: bit i for the one that begins at
    /// policy word i.
    pub met: u32,
}

/// A transition of a workflow: in this state this action leads to the next one.
#[repr(C)]
#[derive(Clone, Copy, Debug, Default, PartialEq, Eq, Hash)]
pub struct Transition {
    /// The state in which it may be taken.
    pub state: u8,
    /// The action's number.
    pub action: u8,
    /// The state that it leads to.
    pub next: u8,
}

/// A workflow, which starts in state 0. Transitions past their number are zero; so is all of it if
/// none is given.
#[repr(C)]
#[derive(Clone, Copy, Debug, PartialEq, Eq, Hash)]
pub struct Workflow {
    /// The transitions.
    pub transitions: [Transition; MAX_TRANSITIONS],
    /// The final states, bit s for state s.
    pub final_states: u16,
    /// The number of the states.
    pub states: u8,
    /// The number of the transitions.
    pub count: u8,
}

/// A policy, the actions taken under it in order of arrival, the closed mark, the status, and a workflow
/// with its present state. Words and places past their numbers are zero.
#[repr(C)]
#[derive(Clone, Copy, Debug, Default, PartialEq, Eq, Hash)]
pub struct Instance {
    /// The policy's words.
    pub policy: [u32; MAX_WORDS],
    /// The taken actions.
    pub actions: [Action; MAX_ACTIONS],
    /// The workflow.
    pub workflow: Workflow,
    /// The number of the policy's words.
    pub words: u8,
    /// The number of the taken actions.
    pub taken: u8,
    /// Whether the instance is closed: 0 is not closed, every other value closed.
    pub closed: u8,
    /// The letter of the status: `o`, `c` or `d`. It is `d` exactly if the instance is closed, and `o`
    /// on one that is not closed and has no action.
    pub status: u8,
    /// The workflow's present state.
    pub state: u32,
}

/// A monitor as C lays it out. It has no padding, and any bytes may be lent.
#[repr(C)]
#[derive(Clone, Copy, Debug, Default, PartialEq, Eq, Hash)]
pub struct Monitor {
    /// Who holds which roles.
    pub configuration: Configuration,
    /// What happens under the policy.
    pub instance: Instance,
}

// Layout 4, with the numbers of the C header: the fields' sizes add up to the structs'. What alters a
// line here alters `LAYOUT`, in the header and in embed too.
const _: () = {
    assert!(offset_of!(Configuration, permissions) == 0);
    assert!(offset_of!(Configuration, user_roles) == 128);
    assert!(offset_of!(Configuration, users) == 160);
    assert!(offset_of!(Configuration, roles) == 164);
    assert!(size_of::<Configuration>() == 8 * MAX_ROLES + 2 * MAX_USERS + 4 + 4);
    assert!(offset_of!(Action, user) == 0);
    assert!(offset_of!(Action, met) == 4);
    assert!(size_of::<Action>() == 4 + 4);
    assert!(offset_of!(Transition, state) == 0);
    assert!(offset_of!(Transition, action) == 1);
    assert!(offset_of!(Transition, next) == 2);
    assert!(size_of::<Transition>() == 1 + 1 + 1);
    assert!(offset_of!(Workflow, transitions) == 0);
    assert!(offset_of!(Workflow, final_states) == 192);
    assert!(offset_of!(Workflow, states) == 194);
    assert!(offset_of!(Workflow, count) == 195);
    assert!(size_of::<Workflow>() == 3 * MAX_TRANSITIONS + 2 + 1 + 1);
    assert!(offset_of!(Instance, policy) == 0);
    assert!(offset_of!(Instance, actions) == 124);
    assert!(offset_of!(Instance, workflow) == 220);
    assert!(offset_of!(Instance, words) == 416);
    assert!(offset_of!(Instance, taken) == 417);
    assert!(offset_of!(Instance, closed) == 418);
    assert!(offset_of!(Instance, status) == 419);
    assert!(offset_of!(Instance, state) == 420);
    assert!(size_of::<Instance>() == 220 + size_of::<Workflow>() + 1 + 1 + 1 + 1 + 4);
    assert!(offset_of!(Monitor, configuration) == 0);
    assert!(offset_of!(Monitor, instance) == 168);
    assert!(size_of::<Monitor>() == size_of::<Configuration>() + size_of::<Instance>());
    assert!(size_of::<Monitor>() == 592);
    assert!(align_of::<Monitor>() == 8);
};

impl Workflow {
    /// No workflow, all zero.
    pub const BLANK: Workflow = Workflow {
        transitions: [Transition { state: 0, action: 0, next: 0 }; MAX_TRANSITIONS],
        final_states: 0,
        states: 0,
        count: 0,
    };
}

impl Default for Workflow {
    fn default() -> Workflow {
        Workflow::BLANK
    }
}

impl Monitor {
    /// How many bytes a monitor is stored in.
    pub const BYTES: usize = size_of::<Monitor>();

    /// The blank monitor, all zero, which a refused opening leaves.
    pub const BLANK: Monitor = Monitor {
        configuration: Configuration {
            permissions: [0; MAX_ROLES],
            user_roles: [0; MAX_USERS],
            users: 0,
            roles: 0,
        },
        instance: Instance {
            policy: [0; MAX_WORDS],
            actions: [Action { user: 0, met: 0 }; MAX_ACTIONS],
            workflow: Workflow::BLANK,
            words: 0,
            taken: 0,
            closed: 0,
            status: 0,
            state: 0,
        },
    };

    /// The monitor in bytes: C's layout of it, each number low byte first.
    pub fn to_bytes(&self) -> [u8; Self::BYTES] {
        let mut writer = Writer { bytes: [0; Self::BYTES], at: 0 };
        writer.configuration(&self.configuration);
        writer.instance(&self.instance);
        writer.bytes
    }

    /// The monitor that is in these bytes, whatever they are.
    pub fn from_bytes(bytes: &[u8; Self::BYTES]) -> Monitor {
        let mut reader = Reader { bytes, at: 0 };
        Monitor { configuration: reader.configuration(), instance: reader.instance() }
    }
}

/// Writes one field behind the other.
struct Writer {
    bytes: [u8; Monitor::BYTES],
    at: usize,
}

impl Writer {
    fn put<const N: usize>(&mut self, field: [u8; N]) {
        self.bytes[self.at..self.at + N].copy_from_slice(&field);
        self.at += N;
    }

    fn configuration(&mut self, own: &Configuration) {
        own.permissions.iter().for_each(|row| self.put(row.to_le_bytes()));
        own.user_roles.iter().for_each(|row| self.put(row.to_le_bytes()));
        self.put(own.users.to_le_bytes());
        self.put(own.roles.to_le_bytes());
    }

    fn instance(&mut self, own: &Instance) {
        own.policy.iter().for_each(|word| self.put(word.to_le_bytes()));
        for action in own.actions {
            self.put(action.user.to_le_bytes());
            self.put(action.met.to_le_bytes());
        }
        self.workflow(&own.workflow);
        self.put([own.words, own.taken, own.closed, own.status]);
        self.put(own.state.to_le_bytes());
    }

    fn workflow(&mut self, own: &Workflow) {
        for Transition { state, action, next } in own.transitions {
            self.put([state, action, next]);
        }
        self.put(own.final_states.to_le_bytes());
        self.put([own.states, own.count]);
    }
}

/// Reads one field behind the other.
struct Reader<'a> {
    bytes: &'a [u8; Monitor::BYTES],
    at: usize,
}

impl Reader<'_> {
    fn take<const N: usize>(&mut self) -> [u8; N] {
        self.at += N;
        std::array::from_fn(|place| self.bytes[self.at - N + place])
    }

    // the fields are read in the order in which they are written here

    fn configuration(&mut self) -> Configuration {
        Configuration {
            permissions: std::array::from_fn(|_| u64::from_le_bytes(self.take())),
            user_roles: std::array::from_fn(|_| u16::from_le_bytes(self.take())),
            users: u32::from_le_bytes(self.take()),
            roles: u32::from_le_bytes(self.take()),
        }
    }

    fn instance(&mut self) -> Instance {
        Instance {
            policy: std::array::from_fn(|_| u32::from_le_bytes(self.take())),
            actions: std::array::from_fn(|_| self.action()),
            workflow: self.workflow(),
            words: u8::from_le_bytes(self.take()),
            taken: u8::from_le_bytes(self.take()),
            closed: u8::from_le_bytes(self.take()),
            status: u8::from_le_bytes(self.take()),
            state: u32::from_le_bytes(self.take()),
        }
    }

    fn action(&mut self) -> Action {
        Action { user: u32::from_le_bytes(self.take()), met: u32::from_le_bytes(self.take()) }
    }

    fn workflow(&mut self) -> Workflow {
        Workflow {
            transitions: std::array::from_fn(|_| self.transition()),
            final_states: u16::from_le_bytes(self.take()),
            states: u8::from_le_bytes(self.take()),
            count: u8::from_le_bytes(self.take()),
        }
    }

    fn transition(&mut self) -> Transition {
        let [state, action, next] = self.take();
        Transition { state, action, next }
    }
}
