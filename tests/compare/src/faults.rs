//! Which faults of policies were tried (02, E2): for each of 1 to 4 the places of interest, several
//! such words, and several numbers at once.

use reference::code::{self, Code};
use reference::place::place_of;
use reference::policy::{read_term, MOST_USERS, MOST_WORDS};

use crate::report::Seen;

/// The word that stands in for a bad one.
const EVERYONE: u32 = 0x01000000;

/// A policy, with the counts that it is read with.
#[derive(Clone, Copy, Debug)]
pub struct Policy<'a> {
    /// The number of users.
    pub users: usize,
    /// The number of roles.
    pub roles: usize,
    /// The words.
    pub words: &'a [u32],
}

/// A kind of fault: its name, the number answered, and whether a policy with its place is of it; 5 has
/// no place, and 0 here.
type Kind = (&'static str, Code, fn(&Policy, usize) -> bool);

/// All kinds; each must occur. No 3 has place 0, and no 4 one of the last two words.
const KINDS: [Kind; 24] = [
    ("1 for no word", 1, |policy, _| policy.words.is_empty()),
    ("1 for 32 words", 1, |policy, _| policy.words.len() == MOST_WORDS + 1),
    ("2 at the first word", 2, |_, place| place == 0),
    ("2 at a middle word", 2, |policy, place| policy.is_middle(place)),
    ("2 at the last word", 2, |policy, place| policy.is_last(place)),
    ("2 at the last of 31 words", 2, |_, place| place + 1 == MOST_WORDS),
    ("2 at several words", 2, |policy, place| policy.with(&policy.words[place + 1..]).code() == 2),
    ("2 and 3", 2, |policy, _| policy.mended_codes() == [3]),
    ("2 and 4", 2, |policy, _| policy.mended_codes() == [4]),
    ("2 and 3 and 4", 2, |policy, _| policy.mended_codes() == [3, 4]),
    ("3 at the second word", 3, |policy, place| place == 1 && policy.is_middle(place)),
    ("3 at a middle word", 3, |policy, place| place > 1 && policy.is_middle(place)),
    ("3 at the last word", 3, |policy, place| policy.is_last(place)),
    ("3 behind the words", 3, |policy, place| place == policy.words.len()),
    ("3 behind 31 words", 3, |_, place| place == MOST_WORDS),
    ("3 and 4", 3, |policy, place| policy.with(&policy.words[..place]).code() == 4),
    ("4 at the first word", 4, |_, place| place == 0),
    ("4 at a middle word", 4, |policy, place| place > 0 && place + 3 < policy.words.len()),
    ("4 at the third last of 31 words", 4, |_, place| place + 3 == MOST_WORDS),
    ("4 at several words", 4, |policy, place| policy.without(place) == 4),
    ("5 and 1", 5, |policy, _| policy.code() == 1),
    ("5 and 2", 5, |policy, _| policy.code() == 2),
    ("5 and 3", 5, |policy, _| policy.code() == 3),
    ("5 and 4", 5, |policy, _| policy.code() == 4),
];

/// The kinds that words which are one term cannot have, beside those of 3.
const NOT_OF_ONE_TERM: [&str; 4] = ["1 for no word", "2 and 3", "2 and 3 and 4", "5 and 3"];

impl Policy<'_> {
    /// The same counts with other words.
    fn with<'a>(&self, words: &'a [u32]) -> Policy<'a> {
        Policy { words, ..*self }
    }

    /// The number of the words by themselves: counts out of range are brought into it.
    fn code(&self) -> Code {
        let [users, roles] = [self.users, self.roles].map(|count| count.clamp(1, MOST_USERS));
        read_term(users, roles, self.words).err().unwrap_or(code::ACCEPTED)
    }

    /// The number without one word.
    fn without(&self, place: usize) -> Code {
        let words = [&self.words[..place], &self.words[place + 1..]].concat();
        self.with(&words).code()
    }

    /// Which of 3 and 4 apply once every bad word is a good one.
    fn mended_codes(&self) -> Vec<Code> {
        let mut words = self.words.to_vec();
        while let Some(place) = place_of(2, self.users, self.roles, &words) {
            words[place] = EVERYONE;
        }
        let first = place_of(3, self.users, self.roles, &words).unwrap_or_default();
        let codes = [self.with(&words).code(), self.with(&words[..first]).code()];
        [3, 4].into_iter().filter(|code| codes.contains(code)).collect()
    }

    /// Whether there are words on both sides of a place.
    fn is_middle(&self, place: usize) -> bool {
        place > 0 && place + 1 < self.words.len()
    }

    /// Whether a place is that of the last of several words.
    fn is_last(&self, place: usize) -> bool {
        place > 0 && place + 1 == self.words.len()
    }
}

/// The kinds of faults that occurred.
#[derive(Clone, Debug)]
pub struct Faults {
    seen: Seen,
}

impl Faults {
    /// None yet; where all are wanted, each must occur.
    pub fn new(name: &str, all_wanted: bool) -> Faults {
        let wanted = KINDS.iter().filter(|_| all_wanted).map(|(name, _, _)| *name);
        Faults { seen: Seen::kinds(&format!("faults in {name}"), wanted) }
    }

    /// None yet; each must occur that words which are one term can have.
    pub fn of_one_term(name: &str) -> Faults {
        let names = KINDS.iter().filter(|(_, code, _)| *code != 3).map(|(name, _, _)| *name);
        let wanted = names.filter(|name| !NOT_OF_ONE_TERM.contains(name));
        Faults { seen: Seen::kinds(&format!("faults in {name}"), wanted) }
    }

    /// Counts a policy for which this number was answered, unless it has no such fault.
    pub fn count(&mut self, policy: Policy, code: Code) {
        let place = match place_of(code, policy.users, policy.roles, policy.words) {
            Some(place) => place,
            None if code == code::COUNTS => 0,
            None => return,
        };
        for (name, number, holds) in KINDS {
            if number == code && holds(&policy, place) {
                self.seen.count_kind(name);
            }
        }
    }

    /// What occurred.
    pub fn seen(self) -> Seen {
        self.seen
    }
}

#[cfg(test)]
mod tests {
    use super::*;
    use reference::generate::faults::edges;

    const NOT: u32 = 0x04000000;
    const PLUS: u32 = 0x05000000;

    #[test]
    fn mended_words_tell_what_else_is_wrong() {
        let codes = |words: &[u32]| Policy { users: 3, roles: 3, words }.mended_codes();
        assert_eq!(codes(&[NOT, 0]), []);
        assert_eq!(codes(&[NOT, 0, 0]), [3]);
        assert_eq!(codes(&[NOT, PLUS, 0]), [4]);
        assert_eq!(codes(&[NOT, PLUS, 0, 0]), [3, 4]);
    }

    #[test]
    fn a_number_that_does_not_apply_is_not_counted() {
        let mut faults = Faults::new("nothing", true);
        for code in [0, 2, 4, 6] {
            faults.count(Policy { users: 3, roles: 3, words: &[] }, code);
        }
        assert!(!faults.seen().to_string().contains("1x"));
    }

    #[test]
    fn edges_are_of_every_kind() {
        let mut faults = Faults::new("edges", true);
        for (_, words) in edges() {
            let policy = Policy { users: 3, roles: 3, words: &words };
            faults.count(policy, policy.code());
            faults.count(policy, code::COUNTS);
        }
        let report = crate::report::Report { groups: vec![], seen: vec![faults.seen()] };
        assert!(report.passed(), "{report}");
    }
}
