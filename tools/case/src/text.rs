//! Text to case.

use crate::declared::{Declared, Names, MOST_ACTION};
use crate::file::{self, Case, Secure, MOST_EVENTS};
use crate::monitor::{MOST_ROLES, MOST_USERS};
use crate::names::{event_kind, Counts, ACTION, CLOSE};
use crate::policy;
use crate::quote::quoted;
use crate::secure;
use crate::tokens::{fault, number, parts, Fault, Part, Parts, Token};

/// Byte order marks, and whose they are.
const ORDER_MARKS: [(&[u8], &str); 3] =
    [(b"\xef\xbb\xbf", "UTF-8"), (b"\xff\xfe", "UTF-16"), (b"\xfe\xff", "UTF-16")];

/// Whether the bytes are meant as a case file: a text has no zero byte, but in UTF-16.
pub fn is_case_file(bytes: &[u8]) -> bool {
    bytes.contains(&0) && !ORDER_MARKS.iter().any(|(mark, _)| bytes.starts_with(mark))
}

/// The text in these bytes.
///
/// # Errors
/// If they are no text.
pub fn decode(bytes: &[u8]) -> Result<&str, Fault> {
    if let Some((_, whose)) = ORDER_MARKS.iter().find(|(mark, _)| bytes.starts_with(mark)) {
        let message = format!("a byte order mark of {whose}: save the text as UTF-8 without it");
        return fault(1, message);
    }
    let line = |place: usize| 1 + bytes[..place].iter().filter(|byte| **byte == b'\n').count();
    if let Some(place) = bytes.iter().position(|byte| *byte == 0) {
        return fault(line(place), "a zero byte, which no text has");
    }
    std::str::from_utf8(bytes)
        .or_else(|error| fault(line(error.valid_up_to()), "a byte that is not UTF-8"))
}

/// A line for each of some keys, in their order, `KEY: VALUE VALUE ..`: bit v for value v. `form` tells
/// that, and `what` is one value.
///
/// # Errors
/// The first fault of the lines.
pub fn rows(
    part: &Part,
    form: &str,
    keys: &Names,
    what: &str,
    value: impl Fn(Token) -> Result<u32, Fault>,
) -> Result<Vec<u64>, Fault> {
    let mut rows = Vec::new();
    for tokens in part.lines() {
        let line = tokens[0].line;
        let [key, Token { text: ":", .. }, values @ ..] = tokens else {
            return fault(line, form);
        };
        if keys.number(*key)? as usize != rows.len() {
            return fault(line, format!("{} is due here", keys.line_of(rows.len())));
        }
        rows.push(row(values, what, &value)?);
    }
    if rows.len() < keys.count() as usize {
        let message = format!("{} is missing behind this one", keys.line_of(rows.len()));
        return fault(part.last_line(), message);
    }
    Ok(rows)
}

/// The values of one line.
fn row(
    values: &[Token],
    what: &str,
    value: &impl Fn(Token) -> Result<u32, Fault>,
) -> Result<u64, Fault> {
    let mut row = 0;
    for token in values {
        let value = value(*token)?;
        if row >> value & 1 == 1 {
            return fault(token.line, format!("{what} {value} stands here a second time"));
        }
        row |= 1 << value;
    }
    Ok(row)
}

/// The rows of the grants, a line a user.
fn grants(part: &Part, declared: &Declared) -> Result<Vec<u16>, Fault> {
    let role = |token: Token| declared.roles.number(token);
    let form = "a line of the grants is `USER: ROLE ROLE ..`";
    let rows = rows(part, form, &declared.users, "role", role)?;
    Ok(rows.into_iter().map(|row| row as u16).collect())
}

/// One event word from its line.
fn event(tokens: &[Token], declared: &Declared) -> Result<u32, Fault> {
    let Token { line, text: name } = tokens[0];
    match (event_kind(name), &tokens[1..]) {
        (Some(CLOSE), []) => Ok(CLOSE << 24),
        (Some(CLOSE), _) => fault(line, "`close` stands alone"),
        (Some(kind), [user, low]) => {
            let user = declared.users.number(*user)?;
            let low = match kind {
                ACTION => declared.actions.any_number(*low, MOST_ACTION)?,
                _ => declared.roles.number(*low)?,
            };
            Ok(kind << 24 | user << 8 | low)
        }
        (Some(ACTION), _) => fault(line, "an action is `act USER NUMBER`"),
        (Some(_), _) => fault(line, format!("this event is `{name} USER ROLE`")),
        (None, [word]) if name == "word" => number(*word, u32::MAX),
        (None, _) if name == "word" => fault(line, "`word` is followed by one number"),
        (None, _) => fault(line, format!("{} is no event", quoted(name))),
    }
}

/// The event words.
fn events(part: &Part, declared: &Declared) -> Result<Vec<u32>, Fault> {
    if let Some(tokens) = part.lines().nth(MOST_EVENTS) {
        return fault(tokens[0].line, format!("one event more than {MOST_EVENTS}"));
    }
    part.lines().map(|tokens| event(tokens, declared)).collect()
}

/// Bytes in hexadecimal.
///
/// # Errors
/// The first token that is none.
pub fn bytes(tokens: &[Token]) -> Result<Vec<u8>, Fault> {
    let is_digit = |c: char| c.is_ascii_hexdigit();
    let byte = |token: &Token| match u8::from_str_radix(token.text, 16) {
        Ok(byte) if token.text.chars().all(is_digit) => Ok(byte),
        _ => fault(token.line, format!("{} is no byte from 00 to ff", quoted(token.text))),
    };
    tokens.iter().map(byte).collect()
}

/// The bytes of a text that says them all, if it is one.
fn raw(parts: &Parts) -> Result<Option<Vec<u8>>, Fault> {
    match parts.get("bytes") {
        None => Ok(None),
        Some(part) if parts.count() == 1 => bytes(&part.tokens).map(Some),
        Some(part) => fault(part.line, "`bytes` stands alone, with no other part"),
    }
}

/// The case file that a text says.
///
/// # Errors
/// The first fault of the text.
pub fn write(text: &str) -> Result<Vec<u8>, Fault> {
    let parts = parts(text)?;
    if let Some(bytes) = raw(&parts)? {
        return Ok(bytes);
    }
    let declared = Declared::of(&parts)?;
    let counts = declared.counts();
    Ok(file::write(&Case {
        users: counts.users,
        roles: counts.roles,
        policy: policy::read(parts.need("policy")?, &declared)?.words,
        grants: grants(parts.need("grants")?, &declared)?,
        events: events(parts.need("events")?, &declared)?,
        secure: secure::read(&parts, &declared)?,
    }))
}

/// What a text declares whose policy alone is asked for: a policy's text by itself has no counts, and
/// is taken with the most.
fn declared_alone<'a>(parts: &Parts<'a>) -> Result<Declared<'a>, Fault> {
    let text = parts.get("policy").and_then(|part| part.policy_text);
    if text.is_some() && parts.count() == 1 {
        let counts = Counts { users: MOST_USERS as u8, roles: MOST_ROLES as u8 };
        return Ok(Declared::numbered(counts));
    }
    Declared::of(parts)
}

/// The counts and the policy of a text, whatever else it says or does not say.
///
/// # Errors
/// The first fault of these.
pub fn policy_alone(text: &str) -> Result<Case, Fault> {
    let parts = parts(text)?;
    if let Some(bytes) = raw(&parts)? {
        return file::read(&bytes).or_else(|reason| fault(1, reason));
    }
    let declared = declared_alone(&parts)?;
    let counts = declared.counts();
    let policy = policy::read(parts.need("policy")?, &declared)?.words;
    Ok(Case { users: counts.users, roles: counts.roles, policy, ..Case::default() })
}

/// The permissions and the workflow of a text, if it has them. One that says bytes has none.
///
/// # Errors
/// The first fault of these and of what they name.
pub fn secure_alone(text: &str) -> Result<Option<Secure>, Fault> {
    let parts = parts(text)?;
    if parts.get("bytes").is_some() {
        return Ok(None);
    }
    secure::read(&parts, &declared_alone(&parts)?)
}

/// What a text adds to its case file.
pub struct Source<'a> {
    /// The line of each policy word.
    pub lines: Vec<usize>,
    /// The names.
    pub declared: Declared<'a>,
}

/// What a text adds to its case file; nothing if it says bytes.
///
/// # Errors
/// The first fault of the counts, names and policy.
pub fn source(text: &str) -> Result<Option<Source<'_>>, Fault> {
    let parts = parts(text)?;
    if parts.get("bytes").is_some() {
        return Ok(None);
    }
    let declared = declared_alone(&parts)?;
    let lines = policy::read(parts.need("policy")?, &declared)?.lines;
    Ok(Some(Source { lines, declared }))
}
