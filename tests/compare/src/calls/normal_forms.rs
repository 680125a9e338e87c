//! The normal form: the number, the place of a policy's fault, the words written, and that the rest of
//! the output keeps what it had.

use oskhrein::raw::Calls;
use reference::generate::calls::{policy_edges, policy_input, PolicyInput};
use reference::generate::Random;
use reference::place::place_of;
use reference::policy::normal_form;

use super::Reader;
use crate::faults::Policy;
use crate::lent::Lent;
use crate::report::answer_text;

/// Compares on the edges and on so many random policies.
pub fn compare(library: &Calls, seed: u64, count: usize) -> Reader {
    let mut reader = Reader::new("normal form", &[0, 1, 2, 3, 4, 5, 13]);
    for (name, input) in policy_edges() {
        check(&mut reader, library, &name, &input);
    }
    let mut random = Random::new(seed);
    for turn in 0..count {
        if reader.call.group.is_enough() {
            break;
        }
        let input = policy_input(&mut random);
        check(&mut reader, library, &format!("random {turn} of seed {seed}"), &input);
    }
    reader
}

/// One normal form.
fn check(reader: &mut Reader, library: &Calls, label: &str, input: &PolicyInput) {
    let PolicyInput { users, roles, words, output } = input;
    let (users, roles) = (*users, *roles);
    let mut expected = Lent::new(*output);
    let code = normal_form(users, roles, words, expected.words());
    let place = place_of(code, users, roles, words);
    let (mut got, mut lent) = (Lent::new(*output), reader.lent_byte());
    let answer = library.normal_form(users as u8, roles as u8, words, got.words(), lent.byte());
    let same = answer == code as u8 && got == expected && lent.holds(place);
    reader.check(Policy { users, roles, words }, answer, same, || {
        let (answer, place) = (answer_text(answer), lent.against(place));
        let (expected, got) = (expected.words(), got.words());
        format!(
            "{label}\n  (hex) {input:x?}
  expected {code} and {expected:08x?}\n  got {answer} and {got:08x?}\n{place}"
        )
    });
}
