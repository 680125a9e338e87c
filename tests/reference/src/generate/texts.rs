//! Texts of policies (02, E7), to be read: random ones of each kind, with outputs of every length of
//! interest.
//!
//! - [`edges`]: texts named by the number that they are to get;
//! - [`damage`]: texts with one byte altered, each in turn;
//! - [`writing`]: policies whose texts are to be written.

pub mod damage;
pub mod edges;
pub mod writing;

use super::terms::{self, Style};
use super::Random;
use crate::policy::{Operator, Term, MOST_USERS, MOST_WORDS};
use crate::text::{read_alone, text_of, OPENING};
use damage::Damage;

/// Input for reading a text.
#[derive(Clone, Debug, PartialEq, Eq)]
pub struct TextInput {
    /// The number of users.
    pub users: usize,
    /// The number of roles.
    pub roles: usize,
    /// The text.
    pub text: Vec<u8>,
    /// The length of the output in words.
    pub output: usize,
    /// How one byte of a good text was altered, if that is how the text was made.
    pub damage: Option<Damage>,
}

/// The bytes that a text can have, and the pieces that it falls into, of which some are wrong.
const ALPHABET: &[u8] = b"policy: alrnotusbhwe(){},0123456789";
const PIECES: [&str; 22] = [
    "all", "r0", "r1", "r2", "r12", "r15", "r16", "r07", "{0}", "{0,1}", "{1,2,14}", "{1,0}",
    "not ", "plus ", "(", "(", " or ", " both ", " with ", " apart ", ")", ")",
];

/// The kinds of random texts, in turn.
const KINDS: [&str; 12] = [
    "declared",
    "undeclared",
    "loose",
    "long",
    "damaged",
    "cut",
    "lengthened",
    "bytes behind the opening",
    "alphabet behind the opening",
    "pieces behind the opening",
    "nested",
    "bytes",
];

/// A random text of the kind whose turn it is; its name says the kind.
pub fn random_text(random: &mut Random, turn: usize) -> (&'static str, TextInput) {
    let kind = KINDS[turn % KINDS.len()];
    let mut count = || random.pick(&[1, 2, 3, 3, 4, 8, 15, MOST_USERS]);
    let (users, roles) = (count(), count());
    let declared = Style { users, roles, lean: 50 };
    let every = Style { users: MOST_USERS, roles: MOST_USERS, lean: 50 };
    let words = random.between(1, MOST_WORDS);
    let text = match kind {
        "declared" => text_of(&terms::term(random, declared, words)),
        "undeclared" => text_of(&terms::term(random, every, words)),
        "loose" => text_of(&loose(random, declared, words)),
        "long" => {
            let words = random.between(MOST_WORDS + 1, 200);
            text_of(&loose(random, every, words))
        }
        "damaged" => {
            let text = text_of(&loose(random, declared, words));
            (0..random.between(1, 3)).fold(text, |text, _| damage::random(random, &text))
        }
        "cut" => {
            let text = text_of(&terms::term(random, declared, words));
            text[..random.below(text.len())].to_vec()
        }
        "lengthened" => {
            let text = text_of(&terms::term(random, declared, words));
            [text, drawn(random, ALPHABET, 3)].concat()
        }
        "bytes behind the opening" => [OPENING.to_vec(), bytes(random)].concat(),
        "alphabet behind the opening" => [OPENING.to_vec(), drawn(random, ALPHABET, 40)].concat(),
        "pieces behind the opening" => pieces(random),
        "nested" => nested(random),
        _ => bytes(random),
    };
    let output = output_length(random, &text);
    let users = if random.percent(4) { random.pick(&[0, 17, 255]) } else { users };
    let roles = if random.percent(4) { random.pick(&[0, 17, 255]) } else { roles };
    (kind, TextInput { users, roles, text, output, damage: None })
}

/// A length of an output: none, a word too short, exact, longer, or 31 words.
fn output_length(random: &mut Random, text: &[u8]) -> usize {
    let words = read_alone(text).map_or(3, |term| term.length());
    match random.below(8) {
        0 => 0,
        1 => words - 1,
        2 => words,
        3 => words + random.between(1, 4),
        _ => MOST_WORDS,
    }
}

/// A random term of exactly this many words in which not and plus stand over any term.
fn loose(random: &mut Random, style: Style, words: usize) -> Term {
    if words >= 3 && random.percent(75) {
        let left = random.between(1, words - 2);
        let operator = random.pick(&Operator::ALL);
        let first = loose(random, style, left);
        return Term::join(operator, first, loose(random, style, words - 1 - left));
    }
    match words {
        1 => terms::term(random, style, 1),
        _ => random.pick(&[Term::not, Term::plus])(loose(random, style, words - 1)),
    }
}

/// Up to so many of the given values, at random, but at least one.
fn drawn<T: Clone>(random: &mut Random, values: &[T], most: usize) -> Vec<T> {
    (0..random.between(1, most)).map(|_| random.pick(values)).collect()
}

/// Random bytes.
fn bytes(random: &mut Random) -> Vec<u8> {
    (0..random.below(40)).map(|_| random.word() as u8).collect()
}

/// Random pieces behind the opening.
fn pieces(random: &mut Random) -> Vec<u8> {
    let pieces = drawn(random, &PIECES, 7).concat();
    [OPENING, pieces.as_bytes()].concat()
}

/// Many pieces of one kind that want a term behind them, then perhaps one, up to and past 1,024 bytes.
fn nested(random: &mut Random) -> Vec<u8> {
    let piece = random.pick(&["(", "not ", "plus ", "(all or ", "({0,1} with "]);
    let most = random.pick(&[40, 1100]);
    let depth = random.between(1, most / piece.len());
    let closing = if piece.starts_with('(') { ")" } else { "" };
    let leaf = random.pick(&["all", "r1", "{0}", ""]);
    let closed = random.pick(&[depth, depth, depth - 1, 0]);
    let rest = piece.repeat(depth) + leaf + &closing.repeat(closed);
    [OPENING, rest.as_bytes()].concat()
}

#[cfg(test)]
mod tests {
    use super::*;
    use crate::text::{read_text, MOST_BYTES};
    use std::collections::BTreeSet;

    /// The number that an input gets.
    fn code(input: &TextInput) -> u32 {
        let TextInput { users, roles, text, output, .. } = input;
        let mut output = vec![0; *output];
        read_text(*users, *roles, text, &mut output).map_or_else(|refused| refused.code, |_| 0)
    }

    #[test]
    fn random_texts_bring_about_every_number() {
        let mut random = Random::new(31);
        let made: Vec<_> = (0..3000).map(|turn| random_text(&mut random, turn)).collect();
        let seen: BTreeSet<u32> = made.iter().map(|(_, input)| code(input)).collect();
        assert_eq!(seen, BTreeSet::from([0, 1, 2, 4, 5, 13, 20, 21]));
        assert!(made.iter().any(|(_, input)| input.text.len() > MOST_BYTES));
    }

    #[test]
    fn kinds_come_out_as_named() {
        let mut random = Random::new(32);
        for turn in 0..3000 {
            let (kind, input) = random_text(&mut random, turn);
            let code = code(&input);
            let fits = match kind {
                "declared" => [0, 5, 13].contains(&code),
                "undeclared" => [0, 2, 5, 13].contains(&code),
                "loose" => [0, 4, 5, 13].contains(&code),
                "long" => [1, 5, 21].contains(&code),
                "bytes" => code == 20,
                "cut" => ![1, 4].contains(&code),
                _ => code != 3,
            };
            assert!(fits, "{kind}: {code} for {}", input.text.escape_ascii());
        }
    }
}
