//! The status of a monitor.

use std::fmt;

/// Where a monitor stands. The monitor keeps it: an opening, each accepted action and an accepted close
/// set it, and nothing else does. It does not look at the workflow: a complete monitor whose workflow is
/// in no final state is not closed yet.
#[derive(Clone, Copy, Debug, PartialEq, Eq, Hash)]
pub enum Status {
    /// Not closed, and the taken actions do not satisfy the policy.
    Open,
    /// Not closed, and the taken actions satisfy the policy.
    Complete,
    /// Closed.
    Closed,
}

impl Status {
    /// The letter that is printed for it: `o`, `c` or `d`.
    pub const fn letter(self) -> char {
        match self {
            Status::Open => 'o',
            Status::Complete => 'c',
            Status::Closed => 'd',
        }
    }

    /// The status with this letter.
    pub(crate) fn of_letter(letter: u8) -> Option<Status> {
        let all = [Status::Open, Status::Complete, Status::Closed];
        all.into_iter().find(|status| status.letter() == char::from(letter))
    }
}

/// The letter.
impl fmt::Display for Status {
    fn fmt(&self, f: &mut fmt::Formatter<'_>) -> fmt::Result {
        write!(f, "{}", self.letter())
    }
}
