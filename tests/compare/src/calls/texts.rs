//! Texts read and written (02, E7): the number, the place of a policy's fault, how much was written, the
//! output and what lies past that; and that what was read is written, and what was written is read, just
//! as it was.

use oskhrein::raw::Calls;
use reference::generate::calls::PolicyInput;
use reference::generate::texts::writing::{writing_edges, writing_input};
use reference::generate::texts::{damage, edges, random_text, TextInput};
use reference::generate::Random;
use reference::text::{read_alone, read_text, write_text, Refused};

use super::{Call, Reader};
use crate::faults::{Faults, Policy};
use crate::lent::{Lent, LentCount};
use crate::report::{answer_text, Group, Seen};
use crate::texts::{Texts, Writings};

/// Both calls, what was tried, and the ways there and back.
struct Compared<'a> {
    library: &'a Calls,
    reading: Reader,
    writing: Reader,
    texts: Texts,
    writings: Writings,
    back: Group,
}

/// Compares both calls on their edges, on every text with one byte altered, and on so many random texts
/// and policies.
pub fn compare(library: &Calls, seed: u64, count: usize) -> ([Reader; 2], Group, [Seen; 2]) {
    let mut compared = Compared::new(library);
    for (name, input) in edges::all() {
        compared.read(&name, &input);
    }
    for input in damage::all() {
        compared.read("one byte altered", &input);
    }
    for (name, input) in writing_edges() {
        compared.write(&name, &input);
    }
    let mut random = Random::new(seed);
    for turn in 0..count {
        if compared.reading.call.group.is_enough() || compared.writing.call.group.is_enough() {
            break;
        }
        let (kind, input) = random_text(&mut random, turn);
        compared.read(&format!("{kind} {turn} of seed {seed}"), &input);
        let input = writing_input(&mut random);
        compared.write(&format!("random {turn} of seed {seed}"), &input);
    }
    let Compared { reading, writing, texts, writings, back, .. } = compared;
    ([reading, writing], back, [texts.seen(), writings.seen()])
}

/// The number and the place of an answer.
fn parts(answered: Result<usize, Refused>) -> (u8, Option<usize>) {
    answered.map_or_else(|Refused { code, place }| (code as u8, place), |_| (0, None))
}

impl Compared<'_> {
    /// Nothing compared yet.
    fn new(library: &Calls) -> Compared<'_> {
        let reading = Reader {
            call: Call::new("read text", &[0, 1, 2, 4, 5, 13, 20, 21]),
            faults: Faults::of_one_term("read text"),
            asked: 0,
        };
        Compared {
            library,
            reading,
            writing: Reader::new("write text", &[0, 1, 2, 3, 4, 5, 13]),
            texts: Texts::new(),
            writings: Writings::new(),
            back: Group::new("texts there and back"),
        }
    }

    /// Reads one text.
    fn read(&mut self, label: &str, input: &TextInput) {
        let TextInput { users, roles, text, output, .. } = input;
        let (users, roles) = (*users, *roles);
        let mut expected = Lent::new(*output);
        let answered = read_text(users, roles, text, expected.words());
        let (code, place) = parts(answered);
        let (mut got, mut lent) = (Lent::new(*output), self.reading.lent_byte());
        let mut written = LentCount::new(self.reading.asked);
        let (space, count, byte) = (got.words(), written.count(), lent.byte());
        let answer = self.library.read_text(users as u8, roles as u8, text, space, count, byte);
        let same =
            answer == code && got == expected && written.holds(answered.ok()) && lent.holds(place);
        let words = read_alone(text).map_or(vec![], |term| term.words());
        self.texts.count(input, &words, answer.into());
        self.reading.check(Policy { users, roles, words: &words }, answer, same, || {
            let (answer, place) = (answer_text(answer), lent.against(place));
            let (written, text) = (written.against(answered.ok()), text.escape_ascii());
            let first = expected.first_difference(&got);
            format!(
                "{label}\n  users {users}, roles {roles}, output of {output}, text {text}
  expected {code}, got {answer}\n{place}\n{written}
  first other word of the output (place, expected, got): {first:x?}"
            )
        });
        if answer == 0 && same {
            self.back_to_text(label, input, &words);
        }
    }

    /// Writes the text of one policy.
    fn write(&mut self, label: &str, input: &PolicyInput) {
        let PolicyInput { users, roles, words, output } = input;
        let (users, roles) = (*users, *roles);
        let mut expected = Lent::bytes(*output);
        let answered = write_text(users, roles, words, expected.words());
        let (code, place) = parts(answered);
        let (mut got, mut lent) = (Lent::bytes(*output), self.writing.lent_byte());
        let mut written = LentCount::new(self.writing.asked);
        let (space, count, byte) = (got.words(), written.count(), lent.byte());
        let answer = self.library.write_text(users as u8, roles as u8, words, space, count, byte);
        let same =
            answer == code && got == expected && written.holds(answered.ok()) && lent.holds(place);
        self.writings.count(input, answer.into());
        self.writing.check(Policy { users, roles, words }, answer, same, || {
            let (answer, place) = (answer_text(answer), lent.against(place));
            let written = written.against(answered.ok());
            let (expected, got) = (expected.words().escape_ascii(), got.words().escape_ascii());
            format!(
                "{label}\n  (hex) {input:x?}
  expected {code} and {expected}\n  got {answer} and {got}\n{place}\n{written}"
            )
        });
        if let (0, Ok(count), true) = (answer, answered, same) {
            self.back_to_words(label, input, &got.words()[..count]);
        }
    }

    /// What was read is written: the library gives the text again, in an output of just that length.
    fn back_to_text(&mut self, label: &str, input: &TextInput, words: &[u32]) {
        let TextInput { users, roles, text, .. } = input;
        let (mut again, mut count) = (Lent::bytes(text.len()), 0);
        let (users, roles) = (*users as u8, *roles as u8);
        let answer =
            self.library.write_text(users, roles, words, again.words(), &mut count, &mut 0);
        let same = (answer, count, &*again.words()) == (0, text.len(), text);
        self.back.check(same, || {
            let (text, again) = (text.escape_ascii(), again.words().escape_ascii());
            format!("{label}\n  text {text}, written anew {again} with answer {answer}")
        });
    }

    /// What was written is read: the library gives the words again, in an output of just that length.
    fn back_to_words(&mut self, label: &str, input: &PolicyInput, text: &[u8]) {
        let PolicyInput { users, roles, words, .. } = input;
        let (mut again, mut count) = (Lent::new(words.len()), 0);
        let (users, roles) = (*users as u8, *roles as u8);
        let answer = self.library.read_text(users, roles, text, again.words(), &mut count, &mut 0);
        let same = (answer, count, &*again.words()) == (0, words.len(), words);
        self.back.check(same, || {
            let (text, again) = (text.escape_ascii(), again.words());
            format!("{label}\n  words {words:08x?}, text {text}, read anew {again:08x?}, {answer}")
        });
    }
}
