//! The term that some bytes are, by pieces and a stack.
//!
//! Of the pieces with which the rest begins, the longest is taken. A not or a plus on top of the stack
//! takes the next whole term over it; a closing parenthesis wants the four pieces of a joined term on
//! top. At the end one whole term must lie there, and nothing else.

use std::sync::LazyLock;

use super::{name, written};
use crate::policy::{Operator, Term};

/// The highest number of a role or user.
const HIGHEST: usize = 15;

/// A piece of a text, or a term put together from pieces.
#[derive(Clone, Debug)]
enum Piece {
    Not,
    Plus,
    Opened,
    Named(Operator),
    Closed,
    Whole(Term),
}

/// Every piece but the sets, as it is written.
static VOCABULARY: LazyLock<Vec<(String, Piece)>> = LazyLock::new(vocabulary);

/// Every piece but the sets: a leaf by writing it, an operator with its spaces.
fn vocabulary() -> Vec<(String, Piece)> {
    let mut pieces = vec![
        ("not ".to_string(), Piece::Not),
        ("plus ".to_string(), Piece::Plus),
        ("(".to_string(), Piece::Opened),
        (")".to_string(), Piece::Closed),
    ];
    for operator in Operator::ALL {
        pieces.push((format!(" {} ", name(operator)), Piece::Named(operator)));
    }
    for leaf in (0..=HIGHEST).map(Term::Role).chain([Term::Everyone]) {
        pieces.push((written(&leaf), Piece::Whole(leaf)));
    }
    pieces
}

/// The set with which a text begins: whatever numbers stand up to the brace that closes it, if the set
/// of these numbers is written just so.
fn set_ahead(text: &[u8]) -> Option<(String, Piece)> {
    let end = text.iter().position(|byte| *byte == b'}')?;
    let listed = std::str::from_utf8(text.get(1..end)?).ok()?;
    let users: Vec<usize> = listed.split(',').map(str::parse).collect::<Result<_, _>>().ok()?;
    let set = Term::set(&users);
    let same = written(&set).as_bytes() == &text[..=end];
    let named = users.iter().all(|user| *user <= HIGHEST);
    (same && named).then(|| (written(&set), Piece::Whole(set)))
}

/// The longest piece with which a text begins.
fn piece_ahead(text: &[u8]) -> Option<(String, Piece)> {
    let fitting = VOCABULARY.iter().filter(|(piece, _)| text.starts_with(piece.as_bytes()));
    let longest = fitting.max_by_key(|(piece, _)| piece.len());
    longest.cloned().or_else(|| set_ahead(text))
}

/// Puts a whole term on the stack, under each not and plus that waits for it.
fn put(stack: &mut Vec<Piece>, mut term: Term) {
    loop {
        term = match stack.last() {
            Some(Piece::Not) => Term::not(term),
            Some(Piece::Plus) => Term::plus(term),
            _ => break,
        };
        stack.pop();
    }
    stack.push(Piece::Whole(term));
}

/// Takes the pieces of a joined term from the stack: what stands between the two parentheses, and the
/// first of these.
fn joined(stack: &mut Vec<Piece>) -> Option<Term> {
    let start = stack.len().checked_sub(4)?;
    match <[Piece; 4]>::try_from(stack.split_off(start)) {
        Ok([Piece::Opened, Piece::Whole(left), Piece::Named(operator), Piece::Whole(right)]) => {
            Some(Term::join(operator, left, right))
        }
        _ => None,
    }
}

/// The term that the bytes behind the opening are, of whatever length.
pub fn term_of(bytes: &[u8]) -> Option<Term> {
    let (mut stack, mut rest) = (Vec::new(), bytes);
    while !rest.is_empty() {
        let (text, piece) = piece_ahead(rest)?;
        rest = &rest[text.len()..];
        match piece {
            Piece::Whole(term) => put(&mut stack, term),
            Piece::Closed => {
                let term = joined(&mut stack)?;
                put(&mut stack, term);
            }
            other => stack.push(other),
        }
    }
    match (stack.pop(), &stack[..]) {
        (Some(Piece::Whole(term)), []) => Some(term),
        _ => None,
    }
}
