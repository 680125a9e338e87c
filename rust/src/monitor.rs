//! A monitor: opening, events, the status, who may act, and the bytes in which it is stored.

use crate::event::Event;
use crate::raw::{self, Action, Calls, Transition, LAYOUT};
use crate::refusal::{self, Refusal};
use crate::reload::ReloadFault;
use crate::secure::SecureWorkflow;
use crate::status::Status;
use crate::users::Users;
use crate::workspace::Workspace;

/// The monitor of one run under a policy: the policy, who holds which roles, the actions taken so
/// far, whether it is closed, and its status; permissions and a workflow with its present state, if they
/// are given.
///
/// It is plain data without pointers. [`to_bytes`](Self::to_bytes) and [`reload`](Self::reload) store
/// and reload it.
#[derive(Clone, Debug, PartialEq, Eq, Hash)]
pub struct Monitor {
    raw: raw::Monitor,
}

impl Monitor {
    /// How many bytes a monitor is stored in.
    pub const BYTES: usize = raw::Monitor::BYTES;

    /// Opens a monitor under a policy, with one row of roles for each user, bit r for role r. No
    /// action is taken, it is not closed, and its status is open. Every action is permitted, in any
    /// order.
    ///
    /// # Errors
    /// The first that applies of [`Counts`](Refusal::Counts), [`WordCount`](Refusal::WordCount),
    /// [`Word`](Refusal::Word), [`Term`](Refusal::Term), [`Unit`](Refusal::Unit) and
    /// [`Rows`](Refusal::Rows).
    pub fn open(
        users: u8,
        roles: u8,
        policy: &[u32],
        user_roles: &[u16],
    ) -> Result<Monitor, Refusal> {
        Monitor::open_with(users, roles, policy, user_roles, None)
    }

    /// Opens a monitor, as [`open`](Self::open) does, with permissions and a workflow or with neither.
    /// The workflow is in state 0.
    ///
    /// # Errors
    /// As [`open`](Self::open), and last [`Workflow`](Refusal::Workflow) if the permissions are for
    /// another number of roles.
    pub fn open_with(
        users: u8,
        roles: u8,
        policy: &[u32],
        user_roles: &[u16],
        secure: Option<&SecureWorkflow>,
    ) -> Result<Monitor, Refusal> {
        let permissions = secure.map_or(vec![], |own| own.permissions().to_bytes());
        let workflow = secure.map_or(vec![], |own| own.workflow().to_bytes());
        Monitor::open_bytes(users, roles, policy, user_roles, &permissions, &workflow)
    }

    /// Opens a monitor, as [`open_with`](Self::open_with) does, by the bytes of permissions and
    /// workflow, whatever they are. An empty part is not given.
    ///
    /// Permissions are eight bytes a role, low first, bit a for action a. A workflow is a byte that
    /// counts its states, one that counts its transitions, two, low first, with a bit for each final
    /// state, then three a transition: state, action and next state.
    ///
    /// # Errors
    /// As [`open`](Self::open), and last [`Workflow`](Refusal::Workflow) if they are out of form, or
    /// one is given without the other.
    pub fn open_bytes(
        users: u8,
        roles: u8,
        policy: &[u32],
        user_roles: &[u16],
        permissions: &[u8],
        workflow: &[u8],
    ) -> Result<Monitor, Refusal> {
        assert_layout();
        let (mut raw, mut place) = (raw::Monitor::BLANK, 0);
        let answer = Calls::LINKED.open(
            &mut raw,
            users,
            roles,
            policy,
            user_roles,
            permissions,
            workflow,
            &mut place,
        );
        refusal::policy_accepted(answer, place).map(|()| Monitor { raw })
    }

    /// One event. If it is accepted, it alters its own part alone: an action adds itself, moves the
    /// workflow's state and sets the status anew, a grant or withdrawal alters one bit, a close sets the
    /// mark and the status.
    ///
    /// After an action that is accepted or not possible the workspace speaks of the taken actions
    /// and that one. Every other event and answer leaves it as it was.
    ///
    /// # Errors
    /// The first that applies of [`Monitor`](Refusal::Monitor), [`Closed`](Refusal::Closed),
    /// [`Malformed`](Refusal::Malformed); for an action [`NotAuthorized`](Refusal::NotAuthorized),
    /// [`NoTransition`](Refusal::NoTransition), [`Full`](Refusal::Full) and
    /// [`NotPossible`](Refusal::NotPossible); for a close [`NotSatisfied`](Refusal::NotSatisfied).
    pub fn event(&mut self, event: Event, workspace: &mut Workspace) -> Result<(), Refusal> {
        self.event_word(event.word(), workspace)
    }

    /// The same as [`event`](Self::event), by the event's word. Any word is answered; one that is
    /// no event's is [`Malformed`](Refusal::Malformed).
    ///
    /// # Errors
    /// As [`event`](Self::event).
    pub fn event_word(&mut self, word: u32, workspace: &mut Workspace) -> Result<(), Refusal> {
        refusal::accepted(Calls::LINKED.event(&mut self.raw, word, workspace.words_mut()))
    }

    /// Closes the monitor: [`event`](Self::event) with [`Event::Close`], for which no workspace is
    /// needed, since a close judges no action.
    ///
    /// # Errors
    /// The first that applies of [`Monitor`](Refusal::Monitor), [`Closed`](Refusal::Closed) and
    /// [`NotSatisfied`](Refusal::NotSatisfied).
    pub fn close(&mut self) -> Result<(), Refusal> {
        refusal::accepted(Calls::LINKED.event(&mut self.raw, Event::Close.word(), &mut []))
    }

    /// Where the monitor stands, whatever the workflow's state. The monitor keeps its status, so this
    /// judges no action, and may be asked whenever it is shown.
    ///
    /// # Errors
    /// [`Monitor`](Refusal::Monitor).
    pub fn status(&self) -> Result<Status, Refusal> {
        refusal::status(Calls::LINKED.status(&self.raw))
    }

    /// The users who may act: those whose action with this number would be accepted now. A closed
    /// monitor and one with twelve actions have none, and a user without any role is never one. Without
    /// permissions and workflow the number plays no part.
    ///
    /// A refused event alters nothing, so who may act is asked anew only after an accepted one, for each
    /// number that is shown.
    ///
    /// The workspace then speaks of the taken actions and one of the last user for whom permissions and
    /// workflow do not refuse the action, who may act or not; where they refuse it for all, and on a
    /// monitor that is closed or has twelve actions, it is as it was.
    ///
    /// # Errors
    /// [`Monitor`](Refusal::Monitor).
    ///
    /// # Example
    ///
    /// One counts (role 0), another approves (role 1):
    ///
    /// ```
    /// use oskhrein::{Event, Monitor, Refusal, Term, Workspace};
    ///
    /// # fn main() -> Result<(), Refusal> {
    /// let policy = Term::apart(Term::role(0)?, Term::role(1)?)?;
    /// let mut workspace = Workspace::new();
    /// let mut quote = Monitor::open(3, 2, policy.words(), &[0b01, 0b11, 0b10])?;
    /// let mut may_act = quote.enabled(0, &mut workspace)?;
    /// assert_eq!(may_act.len(), 3);
    ///
    /// for user in [1, 1, 0] {
    ///     let action = Event::Action { user, number: 0 };
    ///     let answer = quote.event(action, &mut workspace);
    ///     assert_eq!(answer.is_ok(), may_act.contains(user));
    ///     if answer.is_ok() {
    ///         may_act = quote.enabled(0, &mut workspace)?;
    ///     }
    /// }
    /// assert!(may_act.is_empty());
    /// # Ok(())
    /// # }
    /// ```
    pub fn enabled(&self, action: u8, workspace: &mut Workspace) -> Result<Users, Refusal> {
        let mut users = 0;
        let answer = Calls::LINKED.enabled(&self.raw, action, workspace.words_mut(), &mut users);
        refusal::accepted(answer).map(|()| Users::from_bits(users))
    }

    /// The policy's words.
    pub fn policy(&self) -> &[u32] {
        first(&self.raw.instance.policy, self.raw.instance.words.into())
    }

    /// How many users are declared.
    pub fn users(&self) -> usize {
        self.raw.configuration.users as usize
    }

    /// How many roles are declared.
    pub fn roles(&self) -> usize {
        self.raw.configuration.roles as usize
    }

    /// The roles that each user holds now, bit r for role r.
    pub fn user_roles(&self) -> &[u16] {
        first(&self.raw.configuration.user_roles, self.users())
    }

    /// The taken actions, in order of arrival.
    pub fn actions(&self) -> &[Action] {
        first(&self.raw.instance.actions, self.raw.instance.taken.into())
    }

    /// For each role the actions that it gives, bit a for action a. All zero if no permissions are
    /// given.
    pub fn permissions(&self) -> &[u64] {
        first(&self.raw.configuration.permissions, self.roles())
    }

    /// How many states the workflow has; none if no workflow is given.
    pub fn states(&self) -> usize {
        self.raw.instance.workflow.states.into()
    }

    /// The transitions of the workflow.
    pub fn transitions(&self) -> &[Transition] {
        let workflow = &self.raw.instance.workflow;
        first(&workflow.transitions, workflow.count.into())
    }

    /// The final states of the workflow, bit s for state s.
    pub fn final_states(&self) -> u16 {
        self.raw.instance.workflow.final_states
    }

    /// The workflow's present state; 0 if no workflow is given.
    pub fn state(&self) -> usize {
        self.raw.instance.state as usize
    }

    /// Whether the monitor is closed.
    pub fn is_closed(&self) -> bool {
        self.raw.instance.closed != 0
    }

    /// The monitor in bytes: C's layout of it, each number low byte first. Keep [`LAYOUT`] beside
    /// them; [`reload`](Self::reload) asks for it.
    pub fn to_bytes(&self) -> [u8; Self::BYTES] {
        self.raw.to_bytes()
    }

    /// The monitor that was stored in these bytes under this layout.
    ///
    /// # Errors
    /// The first that applies of [`Layout`](ReloadFault::Layout), [`Length`](ReloadFault::Length) and
    /// [`Malformed`](ReloadFault::Malformed). What is reloaded is well formed.
    ///
    /// # Example
    ///
    /// ```
    /// use oskhrein::{Monitor, ReloadFault, Term, LAYOUT};
    ///
    /// # fn main() -> Result<(), Box<dyn std::error::Error>> {
    /// let quote = Monitor::open(1, 1, Term::everyone().words(), &[1])?;
    /// let (layout, bytes) = (LAYOUT, quote.to_bytes());
    /// assert_eq!(Monitor::reload(layout, &bytes)?, quote);
    /// assert_eq!(Monitor::reload(3, &bytes), Err(ReloadFault::Layout(3)));
    /// # Ok(())
    /// # }
    /// ```
    pub fn reload(layout: u32, bytes: &[u8]) -> Result<Monitor, ReloadFault> {
        if layout != LAYOUT {
            return Err(ReloadFault::Layout(layout));
        }
        let bytes = bytes.try_into().map_err(|_| ReloadFault::Length(bytes.len()))?;
        let monitor = Monitor::from_bytes(bytes);
        monitor.status().map(|_| monitor).map_err(|_| ReloadFault::Malformed)
    }

    /// The monitor that these bytes are, whatever they are.
    ///
    /// Bytes that no monitor was stored in may give one that is malformed, and those that a version
    /// before 0.6.0 stored always do. Each call on it answers [`Refusal::Monitor`], and
    /// [`policy`](Self::policy), [`user_roles`](Self::user_roles), [`permissions`](Self::permissions),
    /// [`transitions`](Self::transitions) and [`actions`](Self::actions) give no more of it than there
    /// is.
    pub fn from_bytes(bytes: &[u8; Self::BYTES]) -> Monitor {
        Monitor::from_raw(raw::Monitor::from_bytes(bytes))
    }

    /// The monitor as C lays it out.
    pub fn as_raw(&self) -> &raw::Monitor {
        &self.raw
    }

    /// The monitor that C's layout holds, as [`from_bytes`](Self::from_bytes) takes it from bytes.
    pub fn from_raw(raw: raw::Monitor) -> Monitor {
        assert_layout();
        Monitor { raw }
    }
}

/// The library that is linked has this crate's layout. Every monitor is made behind this.
fn assert_layout() {
    let linked = Calls::LINKED.layout();
    assert!(linked == LAYOUT, "the library linked has layout {linked}, this crate {LAYOUT}");
}

/// The first so many, or all if there are fewer.
fn first<T>(all: &[T], count: usize) -> &[T] {
    &all[..all.len().min(count)]
}
