//! Events.

/// What may happen to a monitor.
///
/// Users and roles are numbered from 0. An event that names one which is not declared is refused
/// with 7 when it is sent.
#[derive(Clone, Copy, Debug, PartialEq, Eq, Hash)]
pub enum Event {
    /// A user acts.
    Action {
        /// The user who acts.
        user: u8,
        /// The action's number, which permissions and workflow judge if they are given. It is not
        /// kept.
        number: u8,
    },
    /// A user is given a role.
    Grant {
        /// The user.
        user: u8,
        /// The role given.
        role: u8,
    },
    /// A role is withdrawn from a user.
    Revoke {
        /// The user.
        user: u8,
        /// The role withdrawn.
        role: u8,
    },
    /// The monitor is closed.
    Close,
}

impl Event {
    /// The event as one word: its kind in bits 24 to 31, the user in bits 8 to 15, the action's
    /// number or the role in bits 0 to 7.
    pub const fn word(self) -> u32 {
        let (kind, user, low) = match self {
            Event::Action { user, number } => (1, user, number),
            Event::Grant { user, role } => (2, user, role),
            Event::Revoke { user, role } => (3, user, role),
            Event::Close => (4, 0, 0),
        };
        u32::from_le_bytes([low, user, 0, kind])
    }
}

#[cfg(test)]
mod tests {
    use super::Event;

    #[test]
    fn words_are_in_the_layout() {
        assert_eq!(Event::Action { user: 2, number: 3 }.word(), 0x01000203);
        assert_eq!(Event::Grant { user: 1, role: 2 }.word(), 0x02000102);
        assert_eq!(Event::Revoke { user: 255, role: 255 }.word(), 0x0300ffff);
        assert_eq!(Event::Close.word(), 0x04000000);
    }
}
