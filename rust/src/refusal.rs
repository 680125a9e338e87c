//! Refusals, and the bytes that the library answers.

use std::error::Error;
use std::fmt;

use crate::status::Status;

/// Why a call was refused, by the number that document 01 or 02 gives the reason: 1 to 17, and 19 to
/// 21. Later versions may have more.
///
/// The first four are faults of a policy, and have a [`place`](Self::place) among its words, counted
/// from 0.
///
/// A refused call leaves everything as it was. Only after [`NotPossible`](Self::NotPossible) does the
/// workspace speak of the actions that were judged.
///
/// # Example
///
/// With two roles there is no role 2:
///
/// ```
/// use oskhrein::{Monitor, Refusal, Term};
///
/// let policy = Term::apart(Term::role(0)?, Term::role(2)?)?;
/// let refusal = Monitor::open(2, 2, policy.words(), &[1, 2]).expect_err("it is refused");
/// assert_eq!(refusal, Refusal::Word { place: 2 });
/// assert_eq!((refusal.number(), refusal.place()), (2, Some(2)));
/// assert!(refusal.to_string().starts_with("2 at word 2: this word is not in the layout, names a"));
/// assert_eq!(Refusal::Closed.to_string(), "10: the monitor is closed");
/// # Ok::<(), Refusal>(())
/// ```
#[derive(Clone, Copy, Debug, PartialEq, Eq, PartialOrd, Ord, Hash)]
#[non_exhaustive]
pub enum Refusal {
    /// 1: The policy has no word, or more than 31. Its place is 0.
    WordCount,
    /// 2: A policy word is not in the layout, names a role or user that is not declared, or is an
    /// empty set.
    Word {
        /// The first such word.
        place: usize,
    },
    /// 3: The policy words are not exactly one term.
    Term {
        /// The first word left over behind the first whole term; where the words run out, the word
        /// count.
        place: usize,
    },
    /// 4: A not or a plus stands over a term that is no unit term.
    Unit {
        /// The first such not or plus.
        place: usize,
    },
    /// 5: The users or the roles are not 1 to 16.
    Counts,
    /// 6: The rows of roles are not one a user, or name a role that is not declared.
    Rows,
    /// 7: An event word is out of layout or names a user or role that is not declared; a multiset
    /// counts a user that is not declared.
    Malformed,
    /// 8: Twelve actions are taken already; a multiset has more than twelve.
    Full,
    /// 9: The actions with this one are not possible.
    NotPossible,
    /// 10: The monitor is closed.
    Closed,
    /// 11: A close, but the taken actions do not satisfy the policy, which the status tells, or the
    /// workflow is in no final state.
    NotSatisfied,
    /// 12: The workspace is shorter than 8,192 words. A [`Workspace`](crate::Workspace) never is, and a
    /// close needs none.
    Workspace,
    /// 13: The output is shorter than the policy, or than its text.
    Output,
    /// 14: A case file is malformed. No call of this crate reads one.
    Case,
    /// 15: The monitor is malformed, its status letter perhaps. Only one that was made from bytes can
    /// be. Its policy may be at fault, but no place is given.
    Monitor,
    /// 16: No role that the user holds now gives the action.
    NotAuthorized,
    /// 17: The workflow has no transition for the action from its present state.
    NoTransition,
    /// 19: Permissions or workflow are out of form, or one of the two is given without the other. What
    /// [`SecureWorkflow`](crate::SecureWorkflow) makes is refused only if it is for another number of
    /// roles.
    Workflow,
    /// 20: A text does not begin with `policy: `.
    Opening,
    /// 21: What stands behind that is not exactly one term, or the text has more than 1,024 bytes. It
    /// has no place, since there are no words.
    Text,
}

impl Refusal {
    /// One for each number, in their order; those with a place are at word 0.
    pub const ALL: &'static [Refusal] = &[
        Refusal::WordCount,
        Refusal::Word { place: 0 },
        Refusal::Term { place: 0 },
        Refusal::Unit { place: 0 },
        Refusal::Counts,
        Refusal::Rows,
        Refusal::Malformed,
        Refusal::Full,
        Refusal::NotPossible,
        Refusal::Closed,
        Refusal::NotSatisfied,
        Refusal::Workspace,
        Refusal::Output,
        Refusal::Case,
        Refusal::Monitor,
        Refusal::NotAuthorized,
        Refusal::NoTransition,
        Refusal::Workflow,
        Refusal::Opening,
        Refusal::Text,
    ];

    /// The number.
    pub const fn number(self) -> u8 {
        match self {
            Refusal::WordCount => 1,
            Refusal::Word { .. } => 2,
            Refusal::Term { .. } => 3,
            Refusal::Unit { .. } => 4,
            Refusal::Counts => 5,
            Refusal::Rows => 6,
            Refusal::Malformed => 7,
            Refusal::Full => 8,
            Refusal::NotPossible => 9,
            Refusal::Closed => 10,
            Refusal::NotSatisfied => 11,
            Refusal::Workspace => 12,
            Refusal::Output => 13,
            Refusal::Case => 14,
            Refusal::Monitor => 15,
            Refusal::NotAuthorized => 16,
            Refusal::NoTransition => 17,
            Refusal::Workflow => 19,
            Refusal::Opening => 20,
            Refusal::Text => 21,
        }
    }

    /// The place of a policy's fault among the policy's words, counted from 0. It is below the word
    /// count, or the word count itself where there is no word to point at: the policy is empty, or
    /// its words run out. A refusal that is no policy's fault has none.
    pub const fn place(self) -> Option<usize> {
        match self {
            Refusal::WordCount => Some(0),
            Refusal::Word { place } | Refusal::Term { place } | Refusal::Unit { place } => {
                Some(place)
            }
            _ => None,
        }
    }

    /// The refusal with this number, if there is one. The place is what a call of [`raw`](crate::raw)
    /// left in the byte that it was lent; it plays no part where a number has none.
    pub fn of_number(number: u8, place: u8) -> Option<Refusal> {
        let own = Refusal::ALL.iter().find(|own| own.number() == number)?;
        Some(own.at(place.into()))
    }

    /// The same refusal at this place, if it can be at another one than it is.
    const fn at(self, place: usize) -> Refusal {
        match self {
            Refusal::Word { .. } => Refusal::Word { place },
            Refusal::Term { .. } => Refusal::Term { place },
            Refusal::Unit { .. } => Refusal::Unit { place },
            other => other,
        }
    }

    /// What is wrong, as the papers say it, in this crate's names. Where there is a place, it speaks
    /// of the word there.
    pub const fn sentence(self) -> &'static str {
        match self {
            Refusal::WordCount => "the policy has no word, or more than 31",
            Refusal::Word { .. } => {
                "this word is not in the layout, names a role or user that is not declared, \
                 or is an empty set"
            }
            Refusal::Term { .. } => {
                "the words are not exactly one term: this one is left over, or they run out here"
            }
            Refusal::Unit { .. } => {
                "this not or plus stands over a term that is no unit term: \
                 it has a plus, together or apart in it"
            }
            Refusal::Counts => "users or roles not 1 to 16",
            Refusal::Rows => "role rows not one a user, or a role not declared",
            Refusal::Malformed => {
                "event word out of layout, or user or role not declared; \
                 in a multiset, a count above 0 for a user not declared"
            }
            Refusal::Full => "twelve actions taken already; in a multiset, more than twelve in all",
            Refusal::NotPossible => "the actions with this one are not possible",
            Refusal::Closed => "the monitor is closed",
            Refusal::NotSatisfied => {
                "close, but not satisfied, or the workflow is in no final state"
            }
            Refusal::Workspace => "workspace below 8,192 words",
            Refusal::Output => "output shorter than the policy, or than its text",
            Refusal::Case => "case file malformed",
            Refusal::Monitor => "monitor malformed",
            Refusal::NotAuthorized => "no role that the user holds gives this action",
            Refusal::NoTransition => {
                "the workflow has no transition for this action from its state"
            }
            Refusal::Workflow => "permissions or workflow out of form, or one without the other",
            Refusal::Opening => "the text does not begin with `policy: `",
            Refusal::Text => {
                "what stands behind `policy: ` is not exactly one term, \
                 or the text has more than 1,024 bytes"
            }
        }
    }
}

/// The number, the place if there is one, and the sentence.
impl fmt::Display for Refusal {
    fn fmt(&self, f: &mut fmt::Formatter<'_>) -> fmt::Result {
        write!(f, "{}", self.number())?;
        if let Some(place) = self.place() {
            write!(f, " at word {place}")?;
        }
        write!(f, ": {}", self.sentence())
    }
}

impl Error for Refusal {}

/// What a byte of the library says: `Ok` with what `accepted` finds in it, else its refusal. A call
/// that reads no policy has no place, and none of the numbers that have one.
///
/// # Panics
/// If it is neither, which no call of the proved library answers. To go on would be to guess.
fn answer<T>(byte: u8, place: Option<u8>, accepted: Option<T>) -> Result<T, Refusal> {
    let refusal = Refusal::of_number(byte, place.unwrap_or(0));
    let refusal = refusal.filter(|own| own.place().is_none() || place.is_some());
    match (accepted, refusal) {
        (Some(answer), _) => Ok(answer),
        (None, Some(refusal)) => Err(refusal),
        (None, None) => panic!("the library answered {byte}, which no call of it answers"),
    }
}

/// A number: 0 is acceptance.
pub(crate) fn accepted(byte: u8) -> Result<(), Refusal> {
    answer(byte, None, (byte == 0).then_some(()))
}

/// A number of a call that reads a policy, and the place of its fault: 0 is acceptance.
pub(crate) fn policy_accepted(byte: u8, place: u8) -> Result<(), Refusal> {
    answer(byte, Some(place), (byte == 0).then_some(()))
}

/// A status letter or a number.
pub(crate) fn status(byte: u8) -> Result<Status, Refusal> {
    answer(byte, None, Status::of_letter(byte))
}

/// A `y`, an `n`, or a number and the place of a policy's fault.
pub(crate) fn verdict(byte: u8, place: u8) -> Result<bool, Refusal> {
    let said = match byte {
        b'y' => Some(true),
        b'n' => Some(false),
        _ => None,
    };
    answer(byte, Some(place), said)
}

#[cfg(test)]
mod tests {
    use super::*;
    use std::panic::catch_unwind;

    #[test]
    fn each_refusal_has_its_number() {
        let numbers: Vec<u8> = Refusal::ALL.iter().map(|refusal| refusal.number()).collect();
        assert_eq!(numbers, (1..=17).chain(19..=21).collect::<Vec<u8>>());
        for number in 0..=u8::MAX {
            let found = Refusal::of_number(number, 0);
            assert_eq!(found.map(Refusal::number), numbers.contains(&number).then_some(number));
        }
    }

    #[test]
    fn a_policys_faults_alone_have_a_place() {
        let place = |number| Refusal::of_number(number, 31).and_then(Refusal::place);
        assert_eq!((1..=4).map(place).collect::<Vec<_>>(), [Some(0), Some(31), Some(31), Some(31)]);
        assert!((5..=u8::MAX).map(place).all(|place| place.is_none()));
    }

    #[test]
    fn refusals_print_number_place_and_sentence() {
        for refusal in Refusal::ALL {
            let (number, sentence) = (refusal.number(), refusal.sentence());
            let at = if number <= 4 { " at word 0" } else { "" };
            assert_eq!(refusal.to_string(), format!("{number}{at}: {sentence}"));
        }
        let sentences: std::collections::BTreeSet<&str> =
            Refusal::ALL.iter().map(|refusal| refusal.sentence()).collect();
        assert_eq!(sentences.len(), Refusal::ALL.len());
    }

    #[test]
    fn every_byte_is_an_answer_or_stops() {
        for byte in 0..=u8::MAX {
            let known = |least, letters: &[u8]| {
                (least..=21).contains(&byte) && byte != 18 || letters.contains(&byte)
            };
            assert_eq!(catch_unwind(|| accepted(byte)).is_ok(), known(5, &[0]));
            assert_eq!(catch_unwind(|| status(byte)).is_ok(), known(5, b"ocd"));
            assert_eq!(catch_unwind(|| policy_accepted(byte, 7)).is_ok(), known(1, &[0]));
            assert_eq!(catch_unwind(|| verdict(byte, 7)).is_ok(), known(1, b"yn"));
        }
        assert_eq!((accepted(0), policy_accepted(0, 7)), (Ok(()), Ok(())));
        assert_eq!(status(b'd'), Ok(Status::Closed));
        assert_eq!(verdict(b'n', 7), Ok(false));
        assert_eq!(status(15), Err(Refusal::Monitor));
        assert_eq!(policy_accepted(2, 7), Err(Refusal::Word { place: 7 }));
        assert_eq!(verdict(4, 7), Err(Refusal::Unit { place: 7 }));
        assert_eq!(verdict(6, 7), Err(Refusal::Rows));
    }
}
