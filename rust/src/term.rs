//! Policies as terms, and their texts.

use std::fmt;
use std::str::FromStr;

use crate::raw::{LONGEST_TEXT, MAX_ROLES, MAX_USERS, MAX_WORDS};
use crate::refusal::Refusal;
use crate::{read_text, write_text};

const EVERYONE: u32 = 1;
const ROLE: u32 = 2;
const SET: u32 = 3;
pub(crate) const NOT: u32 = 4;
pub(crate) const PLUS: u32 = 5;
pub(crate) const EITHER: u32 = 6;
pub(crate) const BOTH: u32 = 7;
pub(crate) const TOGETHER: u32 = 8;
pub(crate) const APART: u32 = 9;

/// The counts with which every number that a term may have is declared.
const USERS: u8 = MAX_USERS as u8;
const ROLES: u8 = MAX_ROLES as u8;

/// A policy, put together from smaller ones, parsed from its text, or made of its words.
///
/// Its [`words`](Self::words) are in the layout, exactly one term, at most 31, and not and plus stand
/// over unit terms only. So a call refuses them only if they name a user or role that is not
/// declared. A part that cannot be made is refused as the call would refuse that part alone, at word
/// 0. A text or words are refused as [`read_text`] and [`write_text`] refuse them where 16 users and 16
/// roles are declared.
///
/// A unit term is one that is made without plus, together and apart, and is about one action. A user
/// without any role meets none, whatever it is.
///
/// # Example
///
/// One counts (role 0), another approves (role 1), and besides anybody with a role but user 3 may
/// act:
///
/// ```
/// use oskhrein::{Monitor, Refusal, Term};
///
/// # fn main() -> Result<(), Refusal> {
/// let duties = Term::apart(Term::role(0)?, Term::role(1)?)?;
/// let others = Term::plus(Term::not(Term::set(&[3])?)?)?;
/// let policy = Term::either(duties, Term::together(duties, others)?)?;
/// Monitor::open(4, 2, policy.words(), &[1, 2, 3, 1])?;
/// assert_eq!(Term::role(16), Err(Refusal::Word { place: 0 }));
/// assert_eq!(Term::plus(duties), Err(Refusal::Unit { place: 0 }));
/// # Ok(())
/// # }
/// ```
///
/// The same as an agreement prints it, and read again:
///
/// ```
/// # use oskhrein::{Refusal, Term};
/// # let duties = Term::apart(Term::role(0)?, Term::role(1)?)?;
/// # let others = Term::plus(Term::not(Term::set(&[3])?)?)?;
/// # let policy = Term::either(duties, Term::together(duties, others)?)?;
/// let text = "policy: ((r0 apart r1) or ((r0 apart r1) with plus not {3}))";
/// assert_eq!(policy.to_string(), text);
/// assert_eq!(text.parse(), Ok(policy));
/// assert_eq!(Term::try_from(policy.words()), Ok(policy));
/// assert_eq!("policy: r16".parse::<Term>(), Err(Refusal::Text));
/// assert_eq!("policy: plus (r0 apart r1)".parse::<Term>(), Err(Refusal::Unit { place: 0 }));
/// # Ok::<(), Refusal>(())
/// ```
#[derive(Clone, Copy, Debug, PartialEq, Eq, Hash)]
pub struct Term {
    words: [u32; MAX_WORDS],
    length: usize,
    unit: bool,
}

impl Term {
    /// One action of a user who holds some role.
    pub fn everyone() -> Term {
        Term::leaf(EVERYONE, 0)
    }

    /// One action of a user who holds the role.
    ///
    /// # Errors
    /// [`Word`](Refusal::Word) if the role is not 0 to 15.
    pub fn role(role: u8) -> Result<Term, Refusal> {
        if usize::from(role) < MAX_ROLES {
            Ok(Term::leaf(ROLE, role.into()))
        } else {
            Err(Refusal::Word { place: 0 })
        }
    }

    /// One action of one of these users, who holds some role.
    ///
    /// # Errors
    /// [`Word`](Refusal::Word) if there is no user, or one is not 0 to 15.
    pub fn set(users: &[u8]) -> Result<Term, Refusal> {
        if users.is_empty() || users.iter().any(|user| usize::from(*user) >= MAX_USERS) {
            return Err(Refusal::Word { place: 0 });
        }
        Ok(Term::leaf(SET, users.iter().fold(0, |mask, user| mask | 1 << user)))
    }

    /// One action of a user who holds some role and does not meet the inner term.
    ///
    /// So who has lost every role meets neither the inner term nor this one. Not twice is met by those
    /// who meet the inner term.
    ///
    /// # Errors
    /// [`WordCount`](Refusal::WordCount) if it has more than 31 words, [`Unit`](Refusal::Unit) if
    /// the inner term is no unit term: it has a plus, together or apart in it.
    ///
    /// # Example
    ///
    /// Anybody but Anna, who is user 0. Anna leaves:
    ///
    /// ```
    /// use oskhrein::{Event, Monitor, Refusal, Term, Workspace};
    ///
    /// # fn main() -> Result<(), Refusal> {
    /// let not_anna = Term::not(Term::set(&[0])?)?;
    /// let mut workspace = Workspace::new();
    /// let mut quote = Monitor::open(2, 1, not_anna.words(), &[1, 1])?;
    /// quote.event(Event::Revoke { user: 0, role: 0 }, &mut workspace)?;
    /// let anna = quote.event(Event::Action { user: 0, number: 0 }, &mut workspace);
    /// assert_eq!(anna, Err(Refusal::NotPossible));
    /// quote.event(Event::Action { user: 1, number: 0 }, &mut workspace)?;
    /// # Ok(())
    /// # }
    /// ```
    #[allow(clippy::should_implement_trait)] // the trait's method cannot refuse
    pub fn not(inner: Term) -> Result<Term, Refusal> {
        Term::of(NOT, &[inner], true)?.over_unit(inner)
    }

    /// One or more actions, each of a user who meets the inner term.
    ///
    /// # Errors
    /// As [`not`](Self::not).
    pub fn plus(inner: Term) -> Result<Term, Refusal> {
        Term::of(PLUS, &[inner], false)?.over_unit(inner)
    }

    /// The actions satisfy one side, or the other.
    ///
    /// # Errors
    /// [`WordCount`](Refusal::WordCount) if it has more than 31 words.
    pub fn either(left: Term, right: Term) -> Result<Term, Refusal> {
        Term::of(EITHER, &[left, right], left.unit && right.unit)
    }

    /// The same actions satisfy both sides.
    ///
    /// # Errors
    /// [`WordCount`](Refusal::WordCount) if it has more than 31 words.
    pub fn both(left: Term, right: Term) -> Result<Term, Refusal> {
        Term::of(BOTH, &[left, right], left.unit && right.unit)
    }

    /// The actions fall into two parts, one for each side; a user may act in both.
    ///
    /// # Errors
    /// [`WordCount`](Refusal::WordCount) if it has more than 31 words.
    pub fn together(left: Term, right: Term) -> Result<Term, Refusal> {
        Term::of(TOGETHER, &[left, right], false)
    }

    /// The actions fall into two parts, one for each side, and no user acts in both.
    ///
    /// # Errors
    /// [`WordCount`](Refusal::WordCount) if it has more than 31 words.
    pub fn apart(left: Term, right: Term) -> Result<Term, Refusal> {
        Term::of(APART, &[left, right], false)
    }

    /// The policy's words, as the calls take them.
    pub fn words(&self) -> &[u32] {
        &self.words[..self.length]
    }

    /// A term of one word.
    fn leaf(kind: u32, operand: u16) -> Term {
        let mut words = [0; MAX_WORDS];
        words[0] = kind << 24 | u32::from(operand);
        Term { words, length: 1, unit: true }
    }

    /// The term that these words are, which a call has accepted. Where not and plus stand over unit
    /// terms only, a term is a unit term if it has neither plus nor together nor apart in it.
    pub(crate) fn accepted(words: &[u32]) -> Term {
        let unit = words.iter().all(|word| ![PLUS, TOGETHER, APART].contains(&(word >> 24)));
        let mut term = Term { words: [0; MAX_WORDS], length: words.len(), unit };
        term.words[..words.len()].copy_from_slice(words);
        term
    }

    /// An operator and its sides.
    fn of(kind: u32, sides: &[Term], unit: bool) -> Result<Term, Refusal> {
        let mut term = Term { unit, ..Term::leaf(kind, 0) };
        for side in sides {
            let place = term.words[term.length..].get_mut(..side.length);
            place.ok_or(Refusal::WordCount)?.copy_from_slice(side.words());
            term.length += side.length;
        }
        Ok(term)
    }

    /// The term, if what it stands over is a unit term.
    fn over_unit(self, inner: Term) -> Result<Term, Refusal> {
        if inner.unit {
            Ok(self)
        } else {
            Err(Refusal::Unit { place: 0 })
        }
    }
}

/// Parses a policy's text, where any user and role from 0 to 15 may be named.
impl FromStr for Term {
    type Err = Refusal;

    /// # Errors
    /// As [`read_text`], for 16 users and 16 roles: the first that applies of
    /// [`Opening`](Refusal::Opening), [`Text`](Refusal::Text), [`WordCount`](Refusal::WordCount) and
    /// [`Unit`](Refusal::Unit).
    fn from_str(text: &str) -> Result<Term, Refusal> {
        read_text(USERS, ROLES, text, &mut [0; MAX_WORDS]).map(Term::accepted)
    }
}

/// The policy's text.
impl fmt::Display for Term {
    fn fmt(&self, f: &mut fmt::Formatter<'_>) -> fmt::Result {
        let mut text = [0; LONGEST_TEXT];
        f.pad(write_text(USERS, ROLES, self.words(), &mut text).map_err(|_| fmt::Error)?)
    }
}

/// The policy that words are, such as those of a monitor, where any user and role from 0 to 15 may be
/// named.
impl TryFrom<&[u32]> for Term {
    type Error = Refusal;

    /// # Errors
    /// As [`write_text`], for 16 users and 16 roles: the first that applies of
    /// [`WordCount`](Refusal::WordCount), [`Word`](Refusal::Word), [`Term`](Refusal::Term) and
    /// [`Unit`](Refusal::Unit).
    fn try_from(words: &[u32]) -> Result<Term, Refusal> {
        write_text(USERS, ROLES, words, &mut [0; LONGEST_TEXT]).map(|_| Term::accepted(words))
    }
}
