//! Policies as readable text (02, E7): writing a text, and reading one.
//!
//! A text is written from the term that the words are. It is read in two steps: the text falls into the
//! pieces of a vocabulary, and a stack puts the pieces together ([`stack`]). The numbers that come after
//! 20 and 21 are those of the words that the term has.

mod stack;
#[cfg(test)]
mod tests;

use crate::code::{self, Code};
use crate::place::place_of;
use crate::policy::{read_term, Operator, Term};

pub use stack::term_of;

/// The bytes with which a text begins.
pub const OPENING: &[u8; 8] = b"policy: ";

/// The most bytes that a text may have.
pub const MOST_BYTES: usize = 1024;

/// Why a text is not read or not written.
#[derive(Clone, Copy, Debug, PartialEq, Eq)]
pub struct Refused {
    /// The number.
    pub code: Code,
    /// For 1 to 4 the place of the fault, counted in words.
    pub place: Option<usize>,
}

impl Refused {
    /// A refusal without a place.
    fn plain(code: Code) -> Refused {
        Refused { code, place: None }
    }
}

/// The word that stands between the sides of an operator.
fn name(operator: Operator) -> &'static str {
    match operator {
        Operator::Either => "or",
        Operator::Both => "both",
        Operator::Together => "with",
        Operator::Apart => "apart",
    }
}

/// A term as it stands behind the opening bytes.
pub fn written(term: &Term) -> String {
    match term {
        Term::Everyone => "all".to_string(),
        Term::Role(role) => format!("r{role}"),
        Term::Set(users) => {
            let users: Vec<String> = users.iter().map(usize::to_string).collect();
            format!("{{{}}}", users.join(","))
        }
        Term::Not(inner) => format!("not {}", written(inner)),
        Term::Plus(inner) => format!("plus {}", written(inner)),
        Term::Join(operator, left, right) => {
            format!("({} {} {})", written(left), name(*operator), written(right))
        }
    }
}

/// The text of a term: the opening bytes, then the term.
pub fn text_of(term: &Term) -> Vec<u8> {
    [OPENING, written(term).as_bytes()].concat()
}

/// The term that a text is, with whatever numbers and of whatever length in words.
///
/// # Errors
/// 20, then 21.
pub fn read_alone(text: &[u8]) -> Result<Term, Code> {
    let rest = text.strip_prefix(OPENING).ok_or(code::OPENING)?;
    if text.len() > MOST_BYTES {
        return Err(code::TEXT);
    }
    term_of(rest).ok_or(code::TEXT)
}

/// The term of these words.
///
/// # Errors
/// 5, 1, 2, 3, 4, looked for in that order; of 1 to 4 the place too.
fn read_words(users: usize, roles: usize, words: &[u32]) -> Result<Term, Refused> {
    read_term(users, roles, words)
        .map_err(|code| Refused { code, place: place_of(code, users, roles, words) })
}

/// Puts values at the start of an output and answers how many they are; the rest of the output keeps
/// what it had.
///
/// # Errors
/// 13 where the output is too short; it then keeps all that it had.
fn put<T: Copy>(values: &[T], output: &mut [T]) -> Result<usize, Refused> {
    let start = output.get_mut(..values.len()).ok_or(Refused::plain(code::OUTPUT_SHORT))?;
    start.copy_from_slice(values);
    Ok(values.len())
}

/// Reads a text: its words are written at the start of the output, and the answer is how many.
///
/// # Errors
/// 20, 21, 5, 1, 2, 4 or 13, looked for in that order; the output is then as it was.
pub fn read_text(
    users: usize,
    roles: usize,
    text: &[u8],
    output: &mut [u32],
) -> Result<usize, Refused> {
    let words = read_alone(text).map_err(Refused::plain)?.words();
    read_words(users, roles, &words)?;
    put(&words, output)
}

/// Writes the text of a policy's words at the start of the output; the answer is how many bytes.
///
/// # Errors
/// 5, 1 to 4 or 13, looked for in that order; the output is then as it was.
pub fn write_text(
    users: usize,
    roles: usize,
    words: &[u32],
    output: &mut [u8],
) -> Result<usize, Refused> {
    let term = read_words(users, roles, words)?;
    put(&text_of(&term), output)
}
