//! Reading and writing held against the reference program.

use std::fmt::Debug;

use oskhrein::Refusal;
use reference::generate::calls::PolicyInput;
use reference::generate::texts::writing::{writing_edges, writing_input};
use reference::generate::texts::{damage, edges, random_text, TextInput};
use reference::generate::Random;
use reference::text::{read_text, text_of, write_text, Refused};

use super::*;

/// How often each number was answered, 0 for acceptance.
type Seen = [usize; 22];

/// Holds what tuned code answers and leaves in its output against what the reference does.
fn same<T: PartialEq + Debug>(
    seen: &mut Seen,
    input: &dyn Debug,
    (answer, left): (Result<usize, Refusal>, Vec<T>),
    (expected, kept): (Result<usize, Refused>, Vec<T>),
) {
    let answer = answer.map_err(|refusal| (u32::from(refusal.number()), refusal.place()));
    let expected = expected.map_err(|refused| (refused.code, refused.place));
    assert_eq!((answer, left), (expected, kept), "{input:?}");
    seen[expected.map_or_else(|(number, _)| number as usize, |_| 0)] += 1;
}

/// Reads a text with both.
fn read_both(seen: &mut Seen, input: &TextInput) {
    let TextInput { users, roles, text, output, .. } = input;
    let (mut out, mut kept) = (vec![7; *output], vec![7; *output]);
    let answer = read(*users as u8, *roles as u8, text, &mut out);
    let expected = read_text(*users, *roles, text, &mut kept);
    same(seen, input, (answer, out), (expected, kept));
}

/// Writes a text with both.
fn write_both(seen: &mut Seen, input: &PolicyInput) {
    let PolicyInput { users, roles, words, output } = input;
    let (mut out, mut kept) = (vec![7; *output], vec![7; *output]);
    let answer = write(*users as u8, *roles as u8, words, &mut out);
    let expected = write_text(*users, *roles, words, &mut kept);
    same(seen, input, (answer, out), (expected, kept));
}

/// Each of these numbers was answered several times.
fn covered(numbers: &[usize], seen: &Seen) {
    assert!(numbers.iter().all(|number| seen[*number] > 10), "{seen:?}");
}

#[test]
fn texts_are_read_as_the_reference_reads_them() {
    let (mut random, mut seen) = (Random::new(25), [0; 22]);
    let edges = edges::all().into_iter().map(|(_, input)| input);
    edges.chain(damage::all()).for_each(|input| read_both(&mut seen, &input));
    (0..6000).for_each(|turn| read_both(&mut seen, &random_text(&mut random, turn).1));
    covered(&[0, 1, 2, 4, 5, 13, 20, 21], &seen);
}

#[test]
fn beginnings_of_the_longest_text_are_read_as_the_reference_reads_them() {
    let mut seen = [0; 22];
    let longest = text_of(&edges::longest());
    assert_eq!(longest.len(), LONGEST);
    for end in 0..=longest.len() {
        let text = longest[..end].to_vec();
        let input = TextInput { users: 16, roles: 1, text, output: 31, damage: None };
        read_both(&mut seen, &input);
    }
    assert_eq!((seen[0], seen[20], seen[21]), (1, OPENING.len(), LONGEST - OPENING.len()));
}

#[test]
fn texts_are_written_as_the_reference_writes_them() {
    let (mut random, mut seen) = (Random::new(26), [0; 22]);
    writing_edges().into_iter().for_each(|(_, input)| write_both(&mut seen, &input));
    (0..4000).for_each(|_| write_both(&mut seen, &writing_input(&mut random)));
    covered(&[0, 1, 2, 3, 4, 5, 13], &seen);
}
