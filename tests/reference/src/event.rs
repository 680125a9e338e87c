//! Event words (01, "Sheets and events").

use crate::code::{self, Code};

/// What an event word says.
#[derive(Clone, Copy, Debug, PartialEq, Eq)]
pub enum Event {
    /// A user acts; the action's number is not kept.
    Action {
        /// The user who acts.
        user: usize,
        /// The action's number.
        action: u8,
    },
    /// A user is given a role.
    Grant {
        /// The user.
        user: usize,
        /// The role given.
        role: usize,
    },
    /// A role is taken from a user.
    Revoke {
        /// The user.
        user: usize,
        /// The role taken.
        role: usize,
    },
    /// The instance is closed.
    Close,
}

/// Whether a word is of the kind of a close, in layout or not: such words ask for no workspace.
pub fn is_of_close_kind(word: u32) -> bool {
    word.to_le_bytes()[3] == 4
}

/// Reads an event word.
///
/// # Errors
/// 7 if the word is out of layout or names an undeclared user or role.
pub fn read_event(users: usize, roles: usize, word: u32) -> Result<Event, Code> {
    let [low, user, zero, kind] = word.to_le_bytes().map(usize::from);
    let user_fits = user < users;
    let role_fits = low < roles;
    match kind {
        1 if zero == 0 && user_fits => Ok(Event::Action { user, action: low as u8 }),
        2 if zero == 0 && user_fits && role_fits => Ok(Event::Grant { user, role: low }),
        3 if zero == 0 && user_fits && role_fits => Ok(Event::Revoke { user, role: low }),
        4 if zero == 0 && user == 0 && low == 0 => Ok(Event::Close),
        _ => Err(code::EVENT_WORD),
    }
}

#[cfg(test)]
mod tests {
    use super::*;
    use crate::examples::CLOSE;

    #[test]
    fn kind_4_is_that_of_a_close() {
        assert!([CLOSE, CLOSE | 1, CLOSE | 0xffffff].into_iter().all(is_of_close_kind));
        for word in [0, 4, 0x040000, 0x03ffffff, 0x05000000, 0x14000000, 0x84000000, u32::MAX] {
            assert!(!is_of_close_kind(word), "{word:08x}");
        }
    }

    #[test]
    fn event_words_are_read() {
        let read = |word| read_event(3, 2, word);
        assert_eq!(read(0x010002ff), Ok(Event::Action { user: 2, action: 255 }));
        assert_eq!(read(0x02000201), Ok(Event::Grant { user: 2, role: 1 }));
        assert_eq!(read(0x03000100), Ok(Event::Revoke { user: 1, role: 0 }));
        assert_eq!(read(0x04000000), Ok(Event::Close));
        let wrong = [0, 0x05000000, 0x01000300, 0x01010000, 0x02000002, 0x02000300, 0x03800000];
        for word in wrong {
            assert_eq!(read(word), Err(7), "{word:08x}");
        }
        for bit in 0..24 {
            assert_eq!(read(CLOSE | 1 << bit), Err(7));
        }
    }
}
