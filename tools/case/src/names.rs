//! The names of policy words and event words: 01's names, and `revoke`, which 01 calls `withdraw`.

use crate::declared::Declared;
use crate::tokens::PARTS;

/// The names of the kinds of policy words from kind 1 on.
const TERMS: [&str; 9] =
    ["everyone", "role", "set", "not", "plus", "either", "both", "together", "apart"];
/// The names of the kinds of event words from kind 1 on.
const EVENTS: [&str; 4] = ["act", "grant", "revoke", "close"];
/// The other words that mean something in a text, or in what is printed of a run.
const OTHERS: [&str; 8] = ["withdraw", "word", "states", "final", "none", "raw", "by", "nobody"];
/// The kind of a role.
pub const ROLE: u32 = 2;
/// The kind of a set.
pub const SET: u32 = 3;
/// The kind of an action.
pub const ACTION: u32 = 1;
/// The kind of a close.
pub const CLOSE: u32 = 4;

/// How many users and roles are declared.
#[derive(Clone, Copy, Debug)]
pub struct Counts {
    /// The users.
    pub users: u8,
    /// The roles.
    pub roles: u8,
}

impl Counts {
    /// Whether this user is declared.
    fn has_user(self, user: u32) -> bool {
        user < u32::from(self.users)
    }

    /// Whether this role is declared.
    fn has_role(self, role: u32) -> bool {
        role < u32::from(self.roles)
    }
}

/// The kind of a policy word with this name.
pub fn term_kind(name: &str) -> Option<u32> {
    TERMS.iter().zip(1..).find(|(own, _)| **own == name).map(|(_, kind)| kind)
}

/// The kind of an event word with this name.
pub fn event_kind(name: &str) -> Option<u32> {
    let name = if name == "withdraw" { "revoke" } else { name };
    EVENTS.iter().zip(1..).find(|(own, _)| **own == name).map(|(_, kind)| kind)
}

/// Whether a word means something in a text, so that it names no user, role, action or state.
pub fn is_reserved(word: &str) -> bool {
    let known = PARTS.contains(&word) || OTHERS.contains(&word);
    known || term_kind(word).is_some() || event_kind(word).is_some()
}

/// The name of a policy word's kind.
fn term_name(word: u32) -> Option<&'static str> {
    let place = (word >> 24).checked_sub(1)?;
    TERMS.get(place as usize).copied()
}

/// How many sides follow a policy word, by its kind: below 4 none, below 6 one, else two. A word of
/// an unknown kind stands by itself in a text: it is refused whatever follows.
pub fn sides(word: u32) -> usize {
    match word >> 24 {
        0..4 | 10.. => 0,
        4..6 => 1,
        6..10 => 2,
    }
}

/// Whether the words are exactly one term: each word fills one open place and opens one a side.
pub fn is_one_term(words: &[u32]) -> bool {
    let mut open = 1;
    for word in words {
        if open == 0 {
            return false;
        }
        open += sides(*word);
        open -= 1;
    }
    open == 0
}

/// A word that has no name.
fn raw(word: u32) -> String {
    format!("word {word:#010x}")
}

/// The numbers of the bits that are set.
pub fn bits(mask: u64) -> impl Iterator<Item = u32> {
    (0..u64::BITS).filter(move |bit| mask >> bit & 1 == 1)
}

/// The same as text, each behind a blank.
pub fn members(mask: impl Into<u64>) -> String {
    bits(mask.into()).map(|bit| format!(" {bit}")).collect()
}

/// A policy word by name, where a text may name it.
pub fn term_word(word: u32, counts: Counts) -> String {
    let (kind, operand) = (word >> 24, word & 0x00ff_ffff);
    match (term_name(word), kind) {
        (Some(name), ROLE) if counts.has_role(operand) => format!("{name} {operand}"),
        (Some(name), SET) if operand != 0 && counts.has_user(operand.ilog2()) => {
            name.to_string() + &members(operand)
        }
        (Some(name), _) if operand == 0 && kind != ROLE && kind != SET => name.to_string(),
        _ => raw(word),
    }
}

/// An event word by name, where a text may name it.
pub fn event_word(word: u32, declared: &Declared) -> String {
    let [low, user, zero, kind] = word.to_le_bytes().map(u32::from);
    let counts = declared.counts();
    let name = EVENTS.iter().zip(1..).find(|(_, own)| *own == kind).map(|(name, _)| *name);
    let is_declared = match kind {
        CLOSE => word == CLOSE << 24,
        ACTION => counts.has_user(user),
        _ => counts.has_user(user) && counts.has_role(low),
    };
    let low_names = if kind == ACTION { &declared.actions } else { &declared.roles };
    match name {
        Some(name) if is_declared && kind == CLOSE => name.to_string(),
        Some(name) if is_declared && zero == 0 => {
            format!("{name} {} {}", declared.users.name(user), low_names.name(low))
        }
        _ => raw(word),
    }
}
