//! Which actions a role gives.

use crate::raw::MAX_ROLES;
use crate::secure::{action_number, WorkflowFault};

/// For each role the actions that it gives, out of 0 to 63 (document 004, Definition 1: the permission
/// assignment).
///
/// A user may execute an action if one of the roles that the user holds then gives it. A role may give
/// none, and several may give the same.
#[derive(Clone, Copy, Debug, PartialEq, Eq, Hash)]
pub struct Permissions {
    rows: [u64; MAX_ROLES],
    roles: u8,
}

impl Permissions {
    /// Permissions for this number of roles, none of which gives an action.
    ///
    /// # Errors
    /// [`Roles`](WorkflowFault::Roles) if it is not 1 to 16.
    pub fn new(roles: u8) -> Result<Permissions, WorkflowFault> {
        match usize::from(roles) {
            1..=MAX_ROLES => Ok(Permissions { rows: [0; MAX_ROLES], roles }),
            _ => Err(WorkflowFault::Roles(roles)),
        }
    }

    /// The same, but the role gives these actions too.
    ///
    /// # Errors
    /// [`Role`](WorkflowFault::Role) if there is no such role, [`Action`](WorkflowFault::Action) if an
    /// action is above 63.
    pub fn give(mut self, role: u8, actions: &[u8]) -> Result<Permissions, WorkflowFault> {
        if role >= self.roles {
            return Err(WorkflowFault::Role(role));
        }
        for action in actions {
            self.rows[usize::from(role)] |= 1 << action_number(*action)?;
        }
        Ok(self)
    }

    /// For each role the actions that it gives, bit a for action a.
    pub fn rows(&self) -> &[u64] {
        &self.rows[..usize::from(self.roles)]
    }

    /// As an opening takes them: eight bytes a role, low first.
    pub fn to_bytes(&self) -> Vec<u8> {
        self.rows().iter().flat_map(|row| row.to_le_bytes()).collect()
    }
}
