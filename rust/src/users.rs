//! Sets of users.

use std::fmt;
use std::iter::FusedIterator;

use crate::raw::MAX_USERS;

/// A set of users. Its members are numbers below 16, and are given in ascending order.
///
/// It is 16 bits, bit u for user u, and a program may keep it beside a monitor as such.
///
/// # Example
///
/// ```
/// let users = oskhrein::Users::from_bits(0b1010);
/// assert!(users.contains(3) && !users.contains(2));
/// for user in users {
///     println!("user {user} is shown bright");
/// }
/// assert_eq!(users.into_iter().collect::<Vec<u8>>(), [1, 3]);
/// ```
#[derive(Clone, Copy, Default, PartialEq, Eq, Hash)]
pub struct Users {
    bits: u16,
}

impl Users {
    /// The set with these bits.
    pub const fn from_bits(bits: u16) -> Users {
        Users { bits }
    }

    /// The bits of the set.
    pub const fn bits(self) -> u16 {
        self.bits
    }

    /// Whether a user is in the set. One above 15 never is.
    pub const fn contains(self, user: u8) -> bool {
        (user as usize) < MAX_USERS && self.bits >> user & 1 == 1
    }

    /// How many users are in the set.
    pub const fn len(self) -> usize {
        self.bits.count_ones() as usize
    }

    /// Whether nobody is in the set.
    pub const fn is_empty(self) -> bool {
        self.bits == 0
    }

    /// The users in the set, in ascending order.
    pub const fn iter(self) -> UsersIter {
        UsersIter { left: self }
    }
}

/// The users in braces.
impl fmt::Debug for Users {
    fn fmt(&self, f: &mut fmt::Formatter<'_>) -> fmt::Result {
        f.debug_set().entries(*self).finish()
    }
}

impl IntoIterator for Users {
    type Item = u8;
    type IntoIter = UsersIter;

    fn into_iter(self) -> UsersIter {
        self.iter()
    }
}

impl IntoIterator for &Users {
    type Item = u8;
    type IntoIter = UsersIter;

    fn into_iter(self) -> UsersIter {
        self.iter()
    }
}

/// The users of a set, in ascending order.
#[derive(Clone, Debug)]
pub struct UsersIter {
    left: Users,
}

impl UsersIter {
    /// Takes a member out of what is left.
    fn take_out(&mut self, user: u32) -> u8 {
        self.left.bits &= !(1 << user);
        user as u8
    }
}

impl Iterator for UsersIter {
    type Item = u8;

    fn next(&mut self) -> Option<u8> {
        let first = self.left.bits.trailing_zeros();
        (!self.left.is_empty()).then(|| self.take_out(first))
    }

    fn size_hint(&self) -> (usize, Option<usize>) {
        (self.left.len(), Some(self.left.len()))
    }
}

impl DoubleEndedIterator for UsersIter {
    fn next_back(&mut self) -> Option<u8> {
        let last = self.left.bits.checked_ilog2()?;
        Some(self.take_out(last))
    }
}

impl ExactSizeIterator for UsersIter {}

impl FusedIterator for UsersIter {}

#[cfg(test)]
mod tests {
    use super::Users;

    #[test]
    fn every_set_has_its_members_in_order() {
        for bits in 0..=u16::MAX {
            let users = Users::from_bits(bits);
            let expected: Vec<u8> = (0..16).filter(|user| bits >> user & 1 == 1).collect();
            let found: Vec<u8> = users.iter().collect();
            assert_eq!(found, expected);
            assert_eq!((users.bits(), users.len()), (bits, expected.len()));
            assert_eq!(users.is_empty(), expected.is_empty());
        }
    }

    #[test]
    fn contains_is_asked_of_any_number() {
        let users = Users::from_bits(1 << 15 | 1 << 1);
        let found: Vec<u8> = (0..=u8::MAX).filter(|user| users.contains(*user)).collect();
        assert_eq!(found, [1, 15]);
    }

    #[test]
    fn an_iterator_knows_what_is_left_of_it() {
        let mut iter = Users::from_bits(0b1011_0001).into_iter();
        assert_eq!((iter.len(), iter.next()), (4, Some(0)));
        assert_eq!((iter.len(), iter.next_back()), (3, Some(7)));
        assert_eq!((iter.len(), iter.next()), (2, Some(4)));
        assert_eq!((iter.len(), iter.next_back()), (1, Some(5)));
        assert_eq!((iter.len(), iter.next(), iter.next_back()), (0, None, None));
        assert_eq!(iter.next(), None);
    }

    #[test]
    fn sets_are_shown_and_compared_by_their_members() {
        let users = Users::from_bits(0b101);
        assert_eq!(format!("{users:?}"), "{0, 2}");
        assert_eq!(format!("{:?}", Users::default()), "{}");
        assert_eq!((&users).into_iter().rev().collect::<Vec<u8>>(), [2, 0]);
        assert_ne!(users, Users::from_bits(0b100));
    }
}
