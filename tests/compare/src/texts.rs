//! Which texts were tried (02, E7): for each number what brings it about, what else is wrong beside it,
//! and every way to alter one byte.

use reference::code::Code;
use reference::generate::calls::PolicyInput;
use reference::generate::texts::damage::Damage;
use reference::generate::texts::TextInput;
use reference::place::place_of;
use reference::policy::{counts_fit, read_term, Term, MOST_WORDS};
use reference::text::{read_alone, term_of, text_of, MOST_BYTES, OPENING};

use crate::report::Seen;

/// Up to so many bytes of a text a byte more or less is tried, to see what it lacks.
const TRIED: usize = 100;

/// A text that was read, with the words of the term that it is, if it is one.
struct Text<'a> {
    input: &'a TextInput,
    bytes: &'a [u8],
    words: &'a [u32],
}

/// A kind of text: its name, the number answered, and whether a text is of it.
type Kind = (&'static str, Code, fn(&Text) -> bool);

/// The kinds of texts as they are given; each must occur.
const KINDS: [Kind; 47] = [
    ("20 for no byte", 20, |text| text.bytes.is_empty()),
    ("20 for seven bytes", 20, |text| text.bytes == &OPENING[..7]),
    ("20 for a term alone", 20, |text| term_of(text.bytes).is_some()),
    ("20 for one other byte", 20, |text| text.opening_differs() == 1 && text.has_term()),
    ("20 for capitals", 20, |text| text.with(text.bytes.to_ascii_lowercase())),
    ("20 for a byte ahead", 20, |text| text.with(text.bytes.iter().skip(1).copied().collect())),
    ("20 and more than 1,024 bytes", 20, |text| text.bytes.len() > MOST_BYTES),
    ("20 and 5", 20, |text| !text.counts_fit()),
    ("21 for nothing behind the opening", 21, |text| text.rest().is_empty()),
    ("21 for 1,025 bytes of a term", 21, |text| text.bytes.len() == 1025 && text.has_term()),
    ("21 for 1,025 bytes of no term", 21, |text| text.bytes.len() == 1025 && !text.has_term()),
    ("21 for 1,024 bytes of no term", 21, |text| text.bytes.len() == 1024),
    ("21 for a line feed behind a term", 21, |text| text.ends_in(b'\n')),
    ("21 for a zero byte behind a term", 21, |text| text.ends_in(0)),
    ("21 for a space behind a term", 21, |text| text.ends_in(b' ')),
    ("21 for a digit behind a term", 21, |text| (b'0'..=b'9').any(|digit| text.ends_in(digit))),
    ("21 for a parenthesis behind a term", 21, |text| text.ends_in(b')')),
    ("21 for a zero too many", 21, |text| text.without(b'0')),
    ("21 for a comma too many", 21, |text| text.without(b',')),
    ("21 for a space too many", 21, |text| text.without(b' ')),
    ("21 for a space too few", 21, |text| text.lacks(b' ')),
    ("21 for a comma too few", 21, |text| text.lacks(b',')),
    ("21 for a brace too few", 21, |text| text.lacks(b'}') || text.lacks(b'{')),
    ("21 for a parenthesis too few", 21, |text| text.lacks(b')') || text.lacks(b'(')),
    ("21 for capitals", 21, |text| text.with(text.bytes.to_ascii_lowercase())),
    ("21 for role 16", 21, |text| text.with(text.replaced("r16", "r15"))),
    ("21 for user 16", 21, |text| text.with(text.replaced("16}", "15}"))),
    ("21 for an empty set", 21, |text| text.with(text.replaced("{}", "{0}"))),
    ("21 for users that descend", 21, |text| text.with(text.replaced("{1,0}", "{0,1}"))),
    ("21 for a user twice", 21, |text| text.with(text.replaced("{0,0}", "{0}"))),
    ("21 and 5", 21, |text| !text.counts_fit()),
    ("21 and 2", 21, |text| text.shortened_gets(2)),
    ("21 and 4", 21, |text| text.shortened_gets(4)),
    ("21 and 13", 21, |text| text.input.output == 0),
    ("5 and 13", 5, |text| text.input.output < text.words.len()),
    ("1 for 1,024 bytes", 1, |text| text.bytes.len() == MOST_BYTES),
    ("1 and 2", 1, |text| text.has_place(2)),
    ("1 and 4", 1, |text| text.has_place(4)),
    ("1 and 13", 1, |text| text.input.output < text.words.len()),
    ("2 and 13", 2, |text| text.input.output < text.words.len()),
    ("4 and 13", 4, |text| text.input.output < text.words.len()),
    ("13 for no output", 13, |text| text.input.output == 0),
    ("13 for a word too few", 13, |text| text.input.output + 1 == text.words.len()),
    ("0 with an exact output", 0, |text| text.input.output == text.words.len()),
    ("0 with a longer output", 0, |text| text.input.output > text.words.len()),
    ("0 for 31 words", 0, |text| text.words.len() == MOST_WORDS),
    ("0 for 767 bytes", 0, |text| text.bytes.len() == 767),
];

/// The kinds of texts with one byte altered; each must occur.
const DAMAGED: [Kind; 16] = [
    ("0, a byte replaced", 0, |text| text.is(Damage::Replaced)),
    ("2, a byte replaced", 2, |text| text.is(Damage::Replaced)),
    ("20, a byte replaced", 20, |text| text.is(Damage::Replaced)),
    ("21, a byte replaced", 21, |text| text.is(Damage::Replaced)),
    ("0, a byte deleted", 0, |text| text.is(Damage::Deleted)),
    ("2, a byte deleted", 2, |text| text.is(Damage::Deleted)),
    ("20, a byte deleted", 20, |text| text.is(Damage::Deleted)),
    ("21, a byte deleted", 21, |text| text.is(Damage::Deleted)),
    ("0, a byte inserted", 0, |text| text.is(Damage::Inserted)),
    ("2, a byte inserted", 2, |text| text.is(Damage::Inserted)),
    ("20, a byte inserted", 20, |text| text.is(Damage::Inserted)),
    ("21, a byte inserted", 21, |text| text.is(Damage::Inserted)),
    ("0, a byte doubled", 0, |text| text.is(Damage::Doubled)),
    ("2, a byte doubled", 2, |text| text.is(Damage::Doubled)),
    ("20, a byte doubled", 20, |text| text.is(Damage::Doubled)),
    ("21, a byte doubled", 21, |text| text.is(Damage::Doubled)),
];

impl Text<'_> {
    /// What stands behind the eight bytes of the opening.
    fn rest(&self) -> &[u8] {
        self.bytes.get(OPENING.len()..).unwrap_or_default()
    }

    /// In how many bytes a text that is long enough has another opening.
    fn opening_differs(&self) -> usize {
        self.bytes.iter().zip(OPENING).filter(|(own, wanted)| own != wanted).count()
    }

    /// Whether a term stands behind the opening, whatever the length.
    fn has_term(&self) -> bool {
        term_of(self.rest()).is_some()
    }

    fn counts_fit(&self) -> bool {
        counts_fit(self.input.users, self.input.roles)
    }

    fn is(&self, damage: Damage) -> bool {
        self.input.damage == Some(damage)
    }

    /// Whether other bytes are a text.
    fn with(&self, bytes: Vec<u8>) -> bool {
        read_alone(&bytes).is_ok()
    }

    /// The bytes with one part of them replaced where it stands first.
    fn replaced(&self, from: &str, to: &str) -> Vec<u8> {
        String::from_utf8_lossy(self.bytes).replacen(from, to, 1).into_bytes()
    }

    /// Whether the bytes but the last, which is this one, are a text.
    fn ends_in(&self, byte: u8) -> bool {
        self.bytes.strip_suffix(&[byte]).is_some_and(|bytes| read_alone(bytes).is_ok())
    }

    /// The terms that are read where one byte is left out, with the byte.
    fn shortened(&self) -> Vec<(u8, Term)> {
        let tried = if self.bytes.len() <= TRIED { self.bytes } else { &[] };
        let left_out = |place: usize| {
            let bytes = [&tried[..place], &tried[place + 1..]].concat();
            read_alone(&bytes).ok().map(|term| (tried[place], term))
        };
        (0..tried.len()).filter_map(left_out).collect()
    }

    /// Whether it is a text without one such byte.
    fn without(&self, byte: u8) -> bool {
        self.shortened().iter().any(|(left_out, _)| *left_out == byte)
    }

    /// Whether it gets this number without some byte.
    fn shortened_gets(&self, code: Code) -> bool {
        let TextInput { users, roles, .. } = self.input;
        let read = |term: &Term| read_term(*users, *roles, &term.words());
        self.shortened().iter().any(|(_, term)| read(term) == Err(code))
    }

    /// Whether it is a text with one more such byte.
    fn lacks(&self, byte: u8) -> bool {
        let more = |place: usize| {
            let (before, behind) = self.bytes.split_at(place);
            self.with([before, &[byte], behind].concat())
        };
        self.bytes.len() <= TRIED && (0..=self.bytes.len()).any(more)
    }

    /// Whether the words have a place for this number, whatever number comes first.
    fn has_place(&self, code: Code) -> bool {
        place_of(code, self.input.users, self.input.roles, self.words).is_some()
    }
}

/// The kinds of texts that were read.
#[derive(Clone, Debug)]
pub struct Texts {
    seen: Seen,
}

impl Texts {
    /// None yet; each must occur.
    pub fn new() -> Texts {
        let wanted = KINDS.iter().chain(&DAMAGED).map(|(name, _, _)| *name);
        Texts { seen: Seen::kinds("texts", wanted) }
    }

    /// Counts a text for which this number was answered; the words are those of the term that it is.
    pub fn count(&mut self, input: &TextInput, words: &[u32], code: Code) {
        let text = Text { input, bytes: &input.text, words };
        let kinds = if input.damage.is_some() { &DAMAGED[..] } else { &KINDS[..] };
        for (name, number, holds) in kinds {
            if *number == code && holds(&text) {
                self.seen.count_kind(name);
            }
        }
    }

    /// What occurred.
    pub fn seen(self) -> Seen {
        self.seen
    }
}

/// A kind of policy whose text was to be written: its name, the number answered, and whether a length of
/// an output is of it, beside the length of the text.
type WritingKind = (&'static str, Code, fn(usize, usize) -> bool);

/// All kinds; each must occur. No text has fewer than ten bytes.
const WRITINGS: [WritingKind; 11] = [
    ("0 with an exact output", 0, |output, text| output == text),
    ("0 with a longer output", 0, |output, text| output > text),
    ("0 for 767 bytes", 0, |_, text| text == 767),
    ("13 for no output", 13, |output, _| output == 0),
    ("13 for a byte too few", 13, |output, text| output + 1 == text),
    ("13 for a byte too few of 767", 13, |output, text| output + 1 == text && text == 767),
    ("1 and 13", 1, |output, _| output < 10),
    ("2 and 13", 2, |output, _| output < 10),
    ("3 and 13", 3, |output, _| output < 10),
    ("4 and 13", 4, |output, _| output < 10),
    ("5 and 13", 5, |output, _| output < 10),
];

/// The kinds of policies whose texts were to be written.
#[derive(Clone, Debug)]
pub struct Writings {
    seen: Seen,
}

impl Writings {
    /// None yet; each must occur.
    pub fn new() -> Writings {
        Writings { seen: Seen::kinds("texts written", WRITINGS.map(|(name, _, _)| name)) }
    }

    /// Counts a policy for which this number was answered.
    pub fn count(&mut self, input: &PolicyInput, code: Code) {
        let PolicyInput { users, roles, words, output } = input;
        let length = read_term(*users, *roles, words).map_or(0, |term| text_of(&term).len());
        for (name, number, holds) in WRITINGS {
            if number == code && holds(*output, length) {
                self.seen.count_kind(name);
            }
        }
    }

    /// What occurred.
    pub fn seen(self) -> Seen {
        self.seen
    }
}

#[cfg(test)]
mod tests {
    use super::*;
    use reference::generate::texts::{damage, edges, writing};
    use reference::text::{read_text, write_text};

    #[test]
    fn edges_and_damages_are_of_every_kind() {
        let mut texts = Texts::new();
        let edges = edges::all().into_iter().map(|(_, input)| input);
        for input in edges.chain(damage::all()) {
            let TextInput { users, roles, text, output, .. } = &input;
            let answer = read_text(*users, *roles, text, &mut vec![0; *output]);
            let words = read_alone(text).map_or(vec![], |term| term.words());
            texts.count(&input, &words, answer.map_or_else(|refused| refused.code, |_| 0));
        }
        let mut writings = Writings::new();
        for (_, input) in writing::writing_edges() {
            let PolicyInput { users, roles, words, output } = &input;
            let answer = write_text(*users, *roles, words, &mut vec![0; *output]);
            writings.count(&input, answer.map_or_else(|refused| refused.code, |_| 0));
        }
        let seen = vec![texts.seen(), writings.seen()];
        let report = crate::report::Report { groups: vec![], seen };
        assert!(report.passed(), "{report}");
    }

    #[test]
    fn a_text_that_is_right_but_for_one_byte_tells_which() {
        let tried = |text: &str, holds: fn(&Text) -> bool| {
            let text = [OPENING, text.as_bytes()].concat();
            let input = TextInput { users: 3, roles: 3, text, output: 0, damage: None };
            holds(&Text { input: &input, bytes: &input.text, words: &[] })
        };
        assert!(tried("r07", |text| text.without(b'0')));
        assert!(!tried("r16", |text| text.without(b'0')));
        assert!(tried("{0,}", |text| text.without(b',') && !text.without(b' ')));
        assert!(tried("(all orall)", |text| text.lacks(b' ') && !text.lacks(b')')));
        assert!(tried("r9 ", |text| text.shortened_gets(2) && text.ends_in(b' ')));
        assert!(tried("not plus all ", |text| text.shortened_gets(4) && !text.shortened_gets(2)));
        assert!(tried("{1,0}", |text| text.with(text.replaced("{1,0}", "{0,1}"))));
    }
}
