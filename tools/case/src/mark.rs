//! A refused policy as text, with a mark at the fault.

use crate::file::Case;
use crate::monitor::{Refused, MOST_WORDS};
use crate::names::term_word;
use crate::show;

/// In which line of a text the word at fault stands, as the reader of texts tells it; nothing if it
/// stands in none.
pub fn line(refused: &Refused, lines: &[usize]) -> String {
    let line = refused.place.and_then(|place| lines.get(place));
    line.map_or_else(String::new, |line| format!("line {line}: "))
}

/// The lines of a refused case's policy, with a mark below the word at fault; behind the last word
/// where the words run out. Nothing if the fault is not the policy's.
pub fn fault(case: &Case, refused: &Refused) -> String {
    let Some(place) = refused.place else {
        return String::new();
    };
    // where there are more words than a policy may have, the fault is at the first
    let words = &case.policy;
    let shown = if words.len() > MOST_WORDS { &words[..1] } else { words };
    let text = show::policy(shown, case.counts());
    let mut marked = match words.get(place) {
        Some(word) => marked(&text, place, term_word(*word, case.counts()).len()),
        None => text.clone() + &mark(text.lines().last().map_or(2, str::len), 1),
    };
    if shown.len() < words.len() {
        marked += &format!("  .. and {} words more\n", words.len() - shown.len());
    }
    marked
}

/// A policy's text with a mark of this length below the word at a place.
fn marked(text: &str, place: usize, length: usize) -> String {
    let mut marked = String::new();
    let mut left = Some(place);
    for line in text.lines() {
        marked += &format!("{line}\n");
        let columns = columns(line);
        if let Some(column) = left.and_then(|left| columns.get(left)) {
            marked += &mark(*column, length);
        }
        left = left.and_then(|left| left.checked_sub(columns.len()));
    }
    marked
}

/// A line with a mark.
pub fn mark(column: usize, length: usize) -> String {
    format!("{}{}\n", " ".repeat(column), "^".repeat(length))
}

/// The columns in which a line's policy words begin: with a letter, while numbers begin with a digit.
fn columns(line: &str) -> Vec<usize> {
    let letter = |at: &usize| line.as_bytes()[*at].is_ascii_alphabetic();
    let inside = |at: usize| at > 0 && line.as_bytes()[at - 1].is_ascii_alphanumeric();
    (0..line.len()).filter(letter).filter(|at| !inside(*at)).collect()
}
