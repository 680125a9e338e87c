//! A text taken apart: its parts, their lines, and the words, numbers and signs in them.

use std::fmt;

use crate::monitor::OPENING;
use crate::quote::quoted;

/// What is wrong with a text, and in which line.
#[derive(Clone, Debug, PartialEq, Eq)]
pub struct Fault {
    /// The line, from 1.
    pub line: usize,
    /// What is wrong.
    pub message: String,
}

impl fmt::Display for Fault {
    fn fmt(&self, formatter: &mut fmt::Formatter) -> fmt::Result {
        write!(formatter, "line {}: {}", self.line, self.message)
    }
}

/// A fault in a line.
pub fn fault<T>(line: usize, message: impl Into<String>) -> Result<T, Fault> {
    Err(Fault { line, message: message.into() })
}

/// The names with which parts begin.
pub const PARTS: [&str; 9] =
    ["users", "roles", "actions", "policy", "grants", "permissions", "workflow", "events", "bytes"];

/// A word, number or sign of the text, and its line.
#[derive(Clone, Copy, Debug)]
pub struct Token<'a> {
    /// The line, from 1.
    pub line: usize,
    /// What stands there.
    pub text: &'a str,
}

impl Token<'_> {
    /// Whether it is a sign.
    pub fn is_sign(&self) -> bool {
        self.text.starts_with(is_sign)
    }
}

/// Whether a character stands for itself.
fn is_sign(character: char) -> bool {
    "(),:".contains(character)
}

/// A part of the text: the line of its name, and what follows it.
#[derive(Debug)]
pub struct Part<'a> {
    /// The line of its name.
    pub line: usize,
    /// What stands in that line, where it is a policy's text.
    pub policy_text: Option<&'a str>,
    /// What follows.
    pub tokens: Vec<Token<'a>>,
}

impl<'a> Part<'a> {
    /// The tokens line by line.
    pub fn lines(&self) -> impl Iterator<Item = &[Token<'a>]> {
        self.tokens.chunk_by(|one, next| one.line == next.line)
    }

    /// The line in which it ends.
    pub fn last_line(&self) -> usize {
        self.tokens.last().map_or(self.line, |token| token.line)
    }
}

/// All parts of a text.
#[derive(Debug)]
pub struct Parts<'a> {
    found: [Option<Part<'a>>; PARTS.len()],
    last_line: usize,
}

impl<'a> Parts<'a> {
    /// The part with this name, if it is there.
    pub fn get(&self, name: &str) -> Option<&Part<'a>> {
        PARTS.iter().zip(&self.found).find(|(own, _)| **own == name)?.1.as_ref()
    }

    /// The part with this name.
    ///
    /// # Errors
    /// If it is missing.
    pub fn need(&self, name: &str) -> Result<&Part<'a>, Fault> {
        match self.get(name) {
            Some(part) => Ok(part),
            None => fault(self.last_line, format!("the part `{name}` is missing")),
        }
    }

    /// How many there are.
    pub fn count(&self) -> usize {
        self.found.iter().flatten().count()
    }
}

/// The policy's text that a line is, if it begins with `policy:`. The blanks around it are the line's.
pub fn policy_text(line: &str) -> Option<&str> {
    let text = line.trim_start();
    match text.strip_prefix(OPENING) {
        Some(term) => Some(&text[..OPENING.len() + term.trim_end().len()]),
        None => text.starts_with(OPENING.trim_end()).then(|| text.trim_end()),
    }
}

/// The tokens of a line: signs stand for themselves, all else is parted by blanks.
fn tokens(line: usize, text: &str) -> Vec<Token<'_>> {
    let mut found = Vec::new();
    for piece in text.split_whitespace() {
        for piece in piece.split_inclusive(is_sign) {
            let name = piece.trim_end_matches(is_sign);
            let both = [name, &piece[name.len()..]].into_iter().filter(|text| !text.is_empty());
            found.extend(both.map(|text| Token { line, text }));
        }
    }
    found
}

/// Takes a text apart.
///
/// # Errors
/// If a part stands there twice, or something before the first.
pub fn parts(text: &str) -> Result<Parts<'_>, Fault> {
    let mut found: [Option<Part>; PARTS.len()] = Default::default();
    let mut current = None;
    for (line, text) in (1..).zip(text.lines()) {
        let text = text.split('#').next().unwrap_or_default();
        let mut tokens = tokens(line, text);
        let Some(first) = tokens.first().copied() else {
            continue;
        };
        if let Some(place) = PARTS.iter().position(|name| *name == first.text) {
            if found[place].is_some() {
                return fault(line, format!("`{}` stands here a second time", first.text));
            }
            let policy_text = policy_text(text);
            tokens.drain(..if policy_text.is_some() { tokens.len() } else { 1 });
            found[place] = Some(Part { line, policy_text, tokens: vec![] });
            current = Some(place);
        }
        match current.and_then(|place| found[place].as_mut()) {
            Some(part) => part.tokens.extend(tokens),
            None => {
                return fault(line, format!("{}, but no part has begun", quoted(first.text)));
            }
        }
    }
    Ok(Parts { found, last_line: text.lines().count().max(1) })
}

/// A number from 0 to a most, decimal or, behind `0x`, hexadecimal.
///
/// # Errors
/// If it is none.
pub fn number(token: Token, most: u32) -> Result<u32, Fault> {
    let (digits, radix) = match token.text.strip_prefix("0x") {
        Some(digits) => (digits, 16),
        None => (token.text, 10),
    };
    let only_digits = digits.chars().all(|c| c.is_digit(radix));
    match u32::from_str_radix(digits, radix) {
        Ok(number) if only_digits && number <= most => Ok(number),
        _ => fault(token.line, format!("{} is no number from 0 to {most}", quoted(token.text))),
    }
}
