//! Texts with one byte altered.

use super::TextInput;
use crate::generate::Random;
use crate::policy::{MOST_ROLES, MOST_USERS, MOST_WORDS};
use crate::text::OPENING;

/// How one byte of a text is altered.
#[derive(Clone, Copy, Debug, PartialEq, Eq)]
pub enum Damage {
    /// Another byte stands in its place.
    Replaced,
    /// It is left out.
    Deleted,
    /// Another byte stands before it.
    Inserted,
    /// It stands there twice.
    Doubled,
}

impl Damage {
    /// The text with this damage at a place; where it wants another byte, with this one. Behind the
    /// last byte there is none, so that an insertion alone alters something.
    fn done(self, text: &[u8], place: usize, byte: u8) -> Vec<u8> {
        let (before, rest) = text.split_at(place);
        let (own, behind) = rest.split_at(rest.len().min(1));
        let middle = match self {
            Damage::Replaced => vec![byte],
            Damage::Deleted => vec![],
            Damage::Inserted => [&[byte], own].concat(),
            Damage::Doubled => own.repeat(2),
        };
        [before, &middle, behind].concat()
    }
}

/// Bytes worth putting into a text.
const BYTES: &[u8] = b" (){},01569arnoRA\n\0\x80\xff";

/// What stands behind the opening in the texts that are damaged at every place.
const BASES: [&str; 26] = [
    "all",
    "r0",
    "r1",
    "r9",
    "r10",
    "r15",
    "{0}",
    "{15}",
    "{0,1}",
    "{1,10}",
    "{9,10,11}",
    "{0,1,2,3,4,5,6,7,8,9,10,11,12,13,14,15}",
    "not all",
    "plus r1",
    "not not r12",
    "plus {3,14}",
    "(all or all)",
    "(r1 both r2)",
    "(r0 with r15)",
    "({0} apart {1})",
    "(not r1 or plus all)",
    "not (r1 or {2,3})",
    "plus plus all",
    "((all with r0) apart r1)",
    "(r1 or (r1 both r10))",
    "((r0 apart (r2 or (r0 apart r0))) with plus all)",
];

/// What is put in the place of a byte, or before it.
fn others(own: u8) -> Vec<u8> {
    let near = [own.wrapping_add(1), own.wrapping_sub(1), own ^ 0x20];
    [BYTES, &near].concat().into_iter().filter(|byte| *byte != own).collect()
}

/// Every damage at a place of a text; behind its last byte, every insertion.
fn at(text: &[u8], place: usize) -> Vec<(Damage, Vec<u8>)> {
    let mut tried = Vec::new();
    match text.get(place) {
        Some(own) => {
            tried.extend([(Damage::Deleted, *own), (Damage::Doubled, *own)]);
            for byte in others(*own) {
                tried.extend([(Damage::Replaced, byte), (Damage::Inserted, byte)]);
            }
        }
        None => tried.extend(BYTES.iter().map(|byte| (Damage::Inserted, *byte))),
    }
    let done = |(damage, byte): (Damage, u8)| (damage, damage.done(text, place, byte));
    tried.into_iter().map(done).collect()
}

/// Every damage of the opening before one term, and of each of these terms at every place; in turn all
/// users and roles are declared, and four.
pub fn all() -> Vec<TextInput> {
    let mut found = Vec::new();
    for (number, base) in BASES.iter().enumerate() {
        let text = [OPENING, base.as_bytes()].concat();
        let first = if number == 0 { 0 } else { OPENING.len() };
        for (damage, text) in (first..=text.len()).flat_map(|place| at(&text, place)) {
            let (users, roles) = [(MOST_USERS, MOST_ROLES), (4, 4)][found.len() / 2 % 2];
            let damage = Some(damage);
            found.push(TextInput { users, roles, text, output: MOST_WORDS, damage });
        }
    }
    found
}

/// One random damage of a text.
pub fn random(random: &mut Random, text: &[u8]) -> Vec<u8> {
    let place = random.below(text.len() + 1);
    random.pick(&at(text, place)).1
}

#[cfg(test)]
mod tests {
    use super::*;
    use crate::text::{read_alone, text_of};

    #[test]
    fn a_byte_is_altered_in_each_way() {
        let texts: Vec<Vec<u8>> = at(b"r12", 1).into_iter().map(|(_, text)| text).collect();
        for text in [&b"r2"[..], b"r112", b"r02", b"r22", b"r 12", b"r012", b"r\x112"] {
            assert!(texts.iter().any(|other| other == text), "{}", text.escape_ascii());
        }
        for text in [&b"r12"[..], b"r1", b"R12"] {
            assert!(texts.iter().all(|other| other != text), "{}", text.escape_ascii());
        }
        assert!(at(b"r1", 2).contains(&(Damage::Inserted, b"r15".to_vec())));
    }

    #[test]
    fn a_damaged_text_is_read_only_as_the_term_whose_text_it_is() {
        let inputs = all();
        assert!(inputs.len() > 15_000);
        for TextInput { text, .. } in inputs {
            let Ok(term) = read_alone(&text) else {
                continue;
            };
            assert_eq!(text_of(&term), text);
        }
    }
}
