//! Permissions and a workflow, which are given together or not at all.

use std::error::Error;
use std::fmt;

use crate::permissions::Permissions;
use crate::raw::{ACTION_NUMBERS, MAX_ROLES, MAX_STATES, MAX_TRANSITIONS};
use crate::refusal::Refusal;
use crate::workflow::Workflow;

/// Permissions and a workflow (document 004, section 3.2: a secure workflow). An opening is given both
/// or neither, so they are one value.
///
/// Made of parts that are in form, it is refused with 19 only by an opening with another number of
/// roles than the permissions have.
///
/// # Example
///
/// The payment workflow of document 004, Examples 1, 2 and 7. An invoice is received (1), a check
/// prepared (2), the payment approved (3), once or more, or rejected (5), and the check issued (4):
///
/// ```
/// use oskhrein::{Event, Monitor, Permissions, Refusal, SecureWorkflow, Term, Workflow, Workspace};
///
/// # fn main() -> Result<(), Box<dyn std::error::Error>> {
/// let (accountant, clerk, manager) = (0, 1, 2);
/// let (alice, bob, claire) = (0, 1, 2);
/// let permissions = Permissions::new(3)?
///     .give(accountant, &[2])?
///     .give(clerk, &[1, 4])?
///     .give(manager, &[3, 5])?;
/// let workflow = Workflow::new(5)?
///     .transition(0, 1, 1)?
///     .transition(1, 2, 2)?
///     .transition(2, 3, 3)?
///     .transition(2, 5, 1)?
///     .transition(3, 3, 3)?
///     .transition(3, 5, 1)?
///     .transition(3, 4, 4)?
///     .finish_in(4)?;
/// let secure = SecureWorkflow::new(permissions, workflow);
///
/// // Example 3: an accountant and, as somebody else, a manager or two more accountants; besides
/// // one or more actions of anybody
/// let (one, other) = (Term::role(accountant)?, Term::role(manager)?);
/// let others = Term::either(other, Term::apart(one, one)?)?;
/// let policy = Term::together(Term::apart(one, others)?, Term::plus(Term::everyone())?)?;
/// let rows = [1 << clerk, 1 << accountant, 0];
/// let mut workspace = Workspace::new();
/// let mut payment = Monitor::open_with(3, 3, policy.words(), &rows, Some(&secure))?;
///
/// let does = |user, number| Event::Action { user, number };
/// payment.event(does(alice, 1), &mut workspace)?;
/// // nobody may issue a check yet: the order of work
/// assert_eq!(payment.event(does(alice, 4), &mut workspace), Err(Refusal::NoTransition));
/// payment.event(does(bob, 2), &mut workspace)?;
/// // nobody may approve: no role that Bob holds gives it
/// assert_eq!(payment.event(does(bob, 3), &mut workspace), Err(Refusal::NotAuthorized));
/// assert!(payment.enabled(3, &mut workspace)?.is_empty());
///
/// payment.event(Event::Grant { user: claire, role: manager }, &mut workspace)?;
/// assert_eq!(payment.enabled(3, &mut workspace)?.iter().collect::<Vec<u8>>(), [claire]);
/// payment.event(does(claire, 3), &mut workspace)?;
/// // the policy is satisfied, but the check is not issued: state 3 is not final
/// assert_eq!(payment.status()?.letter(), 'c');
/// assert_eq!(payment.close(), Err(Refusal::NotSatisfied));
/// payment.event(does(alice, 4), &mut workspace)?;
/// payment.close()?;
/// # Ok(())
/// # }
/// ```
#[derive(Clone, Copy, Debug, PartialEq, Eq, Hash)]
pub struct SecureWorkflow {
    permissions: Permissions,
    workflow: Workflow,
}

impl SecureWorkflow {
    /// These permissions with this workflow.
    pub const fn new(permissions: Permissions, workflow: Workflow) -> SecureWorkflow {
        SecureWorkflow { permissions, workflow }
    }

    /// The permissions.
    pub const fn permissions(&self) -> &Permissions {
        &self.permissions
    }

    /// The workflow.
    pub const fn workflow(&self) -> &Workflow {
        &self.workflow
    }
}

/// Why a part of permissions or of a workflow cannot be made. An opening would refuse it with 19.
#[derive(Clone, Copy, Debug, PartialEq, Eq, Hash)]
#[non_exhaustive]
pub enum WorkflowFault {
    /// Permissions for this number of roles, which is not 1 to 16.
    Roles(u8),
    /// A role that the permissions do not have.
    Role(u8),
    /// An action above 63.
    Action(u8),
    /// A workflow of this number of states, which is not 1 to 16.
    States(u8),
    /// A state that the workflow does not have.
    State(u8),
    /// A second transition with the same state and action.
    Duplicate {
        /// The state.
        state: u8,
        /// The action.
        action: u8,
    },
    /// One transition more than 64.
    Transitions,
}

impl fmt::Display for WorkflowFault {
    fn fmt(&self, f: &mut fmt::Formatter<'_>) -> fmt::Result {
        match *self {
            WorkflowFault::Roles(roles) => write!(f, "{roles} roles, not 1 to {MAX_ROLES}"),
            WorkflowFault::Role(role) => write!(f, "role {role} is not declared"),
            WorkflowFault::Action(action) => {
                write!(f, "action {action} is above {}", ACTION_NUMBERS - 1)
            }
            WorkflowFault::States(states) => write!(f, "{states} states, not 1 to {MAX_STATES}"),
            WorkflowFault::State(state) => write!(f, "state {state} is not declared"),
            WorkflowFault::Duplicate { state, action } => {
                write!(f, "a second transition of state {state} with action {action}")
            }
            WorkflowFault::Transitions => write!(f, "more than {MAX_TRANSITIONS} transitions"),
        }
    }
}

impl Error for WorkflowFault {}

/// As an opening would refuse it: [`Refusal::Workflow`].
impl From<WorkflowFault> for Refusal {
    fn from(_: WorkflowFault) -> Refusal {
        Refusal::Workflow
    }
}

/// The action, if permissions and transitions may name it.
pub(crate) fn action_number(action: u8) -> Result<u8, WorkflowFault> {
    if usize::from(action) < ACTION_NUMBERS {
        Ok(action)
    } else {
        Err(WorkflowFault::Action(action))
    }
}

#[cfg(test)]
mod tests {
    use super::*;

    #[test]
    fn faults_say_what_is_wrong() {
        let told = |fault: WorkflowFault| fault.to_string();
        assert_eq!(told(WorkflowFault::Roles(17)), "17 roles, not 1 to 16");
        assert_eq!(told(WorkflowFault::Role(3)), "role 3 is not declared");
        assert_eq!(told(WorkflowFault::Action(64)), "action 64 is above 63");
        assert_eq!(told(WorkflowFault::States(0)), "0 states, not 1 to 16");
        assert_eq!(told(WorkflowFault::State(5)), "state 5 is not declared");
        let duplicate = WorkflowFault::Duplicate { state: 2, action: 3 };
        assert_eq!(told(duplicate), "a second transition of state 2 with action 3");
        assert_eq!(told(WorkflowFault::Transitions), "more than 64 transitions");
        assert_eq!(Refusal::from(duplicate).number(), 19);
    }
}
