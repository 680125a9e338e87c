//! Texts of 02's E7: each form, what is no text, the longest, and the order of the numbers.

use super::*;
use crate::examples::POLICY_F;
use crate::generate::terms::{self, Style};
use crate::generate::texts::edges::{longest, nots, NO_TERMS};
use crate::generate::Random;
use crate::policy::build;
use crate::words::{ALL, APART, BOTH, EITHER, NOT, PLUS, TOGETHER};

/// Sixteen users, sixteen roles.
const MOST: usize = 16;
/// What an output holds before a call.
const KEPT: u32 = 0xa5a5_a5a5;

/// The number and the place for these counts and words of output, or the words; of these what the
/// output held before is looked at too.
fn read_into(users: usize, roles: usize, text: &[u8], length: usize) -> Result<Vec<u32>, Refused> {
    let mut output = vec![KEPT; length];
    let answer = read_text(users, roles, text, &mut output);
    let written = answer.unwrap_or(0);
    assert!(output[written..].iter().all(|word| *word == KEPT));
    answer.map(|count| output[..count].to_vec())
}

/// The words of what stands behind the opening, with sixteen users and roles.
fn read(rest: &str) -> Result<Vec<u32>, Code> {
    let text = [OPENING, rest.as_bytes()].concat();
    read_into(MOST, MOST, &text, 31).map_err(|refused| refused.code)
}

/// The number and the place for what stands behind the opening, with two users and three roles.
fn fault(rest: &str) -> (Code, Option<usize>) {
    let text = [OPENING, rest.as_bytes()].concat();
    let Refused { code, place } = read_into(2, 3, &text, 31).expect_err(rest);
    (code, place)
}

/// The text of words that are accepted for sixteen users and roles.
fn write(words: &[u32]) -> String {
    let mut output = [0xa5; MOST_BYTES];
    let count = write_text(MOST, MOST, words, &mut output).expect("a policy");
    assert!(output[count..].iter().all(|byte| *byte == 0xa5));
    String::from_utf8(output[..count].to_vec()).expect("a text")
}

#[test]
fn each_form_is_read_and_written() {
    let forms: [(&str, &[u32]); 15] = [
        ("all", &[ALL]),
        ("r0", &[0x02000000]),
        ("r9", &[0x02000009]),
        ("r10", &[0x0200000a]),
        ("r15", &[0x0200000f]),
        ("{0}", &[0x03000001]),
        ("{0,1}", &[0x03000003]),
        ("{1,9,10,15}", &[0x03008602]),
        ("not all", &[NOT, ALL]),
        ("plus not r2", &[PLUS, NOT, 0x02000002]),
        ("(all or r1)", &[EITHER, ALL, 0x02000001]),
        ("(all both r1)", &[BOTH, ALL, 0x02000001]),
        ("(r1 with all)", &[TOGETHER, 0x02000001, ALL]),
        ("(r1 apart all)", &[APART, 0x02000001, ALL]),
        ("(not {3} with (all or plus all))", &[TOGETHER, NOT, 0x03000008, EITHER, ALL, PLUS, ALL]),
    ];
    for (rest, words) in forms {
        assert_eq!(read(rest).as_deref(), Ok(words), "{rest}");
        assert_eq!(write(words), format!("policy: {rest}"));
    }
}

#[test]
fn policy_f_is_read_and_written() {
    let rest = "((r0 apart (r2 or (r0 apart r0))) with plus all)";
    assert_eq!(read(rest).as_deref(), Ok(&POLICY_F[..]));
    assert_eq!(write(&POLICY_F), format!("policy: {rest}"));
}

#[test]
fn every_number_and_every_set_is_read_back() {
    for role in 0..MOST {
        assert_eq!(read(&format!("r{role}")), Ok(vec![0x02000000 | role as u32]));
    }
    for mask in 1..=0xffff {
        let word = 0x03000000 | mask;
        let text = write(&[word]);
        assert_eq!(read(&text[OPENING.len()..]), Ok(vec![word]), "{text}");
    }
}

#[test]
fn without_the_opening_it_is_20() {
    let texts: [&[u8]; 12] = [
        b"",
        b"p",
        b"policy:",
        b"policy:all",
        b"policy:\tall",
        b"policy:\nall",
        b"Policy: all",
        b"POLICY: all",
        b" policy: all",
        b"policy : all",
        b"policy; all",
        b"all",
    ];
    for text in texts {
        let refused = Refused { code: 20, place: None };
        assert_eq!(read_into(2, 3, text, 31), Err(refused), "{}", text.escape_ascii());
    }
}

#[test]
fn what_is_no_term_is_21() {
    for rest in NO_TERMS.iter().flat_map(|list| list.split('|')) {
        assert_eq!(fault(rest), (21, None), "{rest:?}");
    }
}

#[test]
fn of_two_bytes_10_are_terms_and_of_three_17() {
    let pairs = (0..=u16::MAX).filter(|bytes| term_of(&bytes.to_le_bytes()).is_some());
    assert_eq!(pairs.count(), 10, "r0 to r9");
    let ascii = (0..1u32 << 21).map(|bits| [bits >> 14, bits >> 7 & 127, bits & 127]);
    let terms = ascii.filter(|bytes| term_of(&bytes.map(|byte| byte as u8)).is_some());
    assert_eq!(terms.count(), 1 + 6 + 10, "all, r10 to r15, {{0}} to {{9}}");
}

#[test]
fn texts_of_1024_bytes_are_terms_and_longer_ones_not() {
    for bytes in [1021, 1022, 1023, MOST_BYTES] {
        assert_eq!(OPENING.len() + nots(bytes).len(), bytes);
        assert_eq!(fault(&nots(bytes)), (1, Some(0)), "{bytes} bytes");
    }
    for bytes in [1025, 1026, 1027, 1028, 5000] {
        assert!(term_of(nots(bytes).as_bytes()).is_some());
        assert_eq!(fault(&nots(bytes)), (21, None), "{bytes} bytes");
    }
    assert_eq!(read_into(2, 3, &[b'p'; 2000], 31), Err(Refused::plain(20)));
}

#[test]
fn the_longest_text_has_767_bytes() {
    let words = longest().words();
    let text = write(&words);
    assert_eq!((words.len(), text.len()), (31, 767));
    assert_eq!(read(&text[OPENING.len()..]), Ok(words));
}

#[test]
fn texts_of_31_words_are_read_and_of_32_not() {
    let chain = |operators| format!("{}all{}", "(".repeat(operators), " or all)".repeat(operators));
    assert_eq!(read(&chain(15)).map(|words| words.len()), Ok(31));
    assert_eq!(read(&format!("{}all", "not ".repeat(30))).map(|words| words.len()), Ok(31));
    assert_eq!(fault(&format!("not {}", chain(15))), (1, Some(0)));
    assert_eq!(fault(&chain(16)), (1, Some(0)));
}

#[test]
fn places_are_counted_in_words() {
    assert_eq!(fault("r3"), (2, Some(0)));
    assert_eq!(fault("r15"), (2, Some(0)));
    assert_eq!(fault("{2}"), (2, Some(0)));
    assert_eq!(fault("{0,1,2}"), (2, Some(0)));
    assert_eq!(fault("(r2 with r3)"), (2, Some(2)));
    assert_eq!(fault("((all or {0,15}) with not r3)"), (2, Some(3)));
    assert_eq!(fault("not (r0 with r1)"), (4, Some(0)));
    assert_eq!(fault("(not all or plus plus all)"), (4, Some(3)));
    assert_eq!(fault("(all with (not r1 or not (all apart all)))"), (4, Some(5)));
}

#[test]
fn numbers_come_in_order() {
    let wrong = |users, text: &str, length| {
        let Refused { code, place } = read_into(users, 3, text.as_bytes(), length).unwrap_err();
        (code, place)
    };
    let many = format!("{}r9", "not ".repeat(31));
    assert_eq!(wrong(0, "policy:{1,0}", 0), (20, None));
    assert_eq!(wrong(0, "policy: {1,0}", 0), (21, None));
    assert_eq!(wrong(2, "policy: (r9 with r07)", 0), (21, None));
    assert_eq!(wrong(0, "policy: r9", 0), (5, None));
    assert_eq!(wrong(17, &format!("policy: {many}"), 0), (5, None));
    assert_eq!(wrong(2, &format!("policy: {many}"), 0), (1, Some(0)));
    assert_eq!(wrong(2, "policy: not plus r9", 0), (2, Some(2)));
    assert_eq!(wrong(2, "policy: not plus r2", 0), (4, Some(0)));
    assert_eq!(wrong(2, "policy: not r2", 0), (13, None));
    assert_eq!(wrong(2, "policy: not r2", 1), (13, None));
    assert_eq!(read_into(2, 3, b"policy: not r2", 2), Ok(vec![NOT, 0x02000002]));
    assert_eq!(read_into(2, 3, b"policy: not r2", 9), Ok(vec![NOT, 0x02000002]));
}

#[test]
fn refused_writing_leaves_the_output() {
    let mut output = [7; 13];
    let mut wrong = |users, words: &[u32]| {
        let Refused { code, place } = write_text(users, 3, words, &mut output).unwrap_err();
        assert_eq!(output, [7; 13]);
        (code, place)
    };
    assert_eq!(wrong(0, &[]), (5, None));
    assert_eq!(wrong(2, &[]), (1, Some(0)));
    assert_eq!(wrong(2, &[ALL; 32]), (1, Some(0)));
    assert_eq!(wrong(2, &[NOT, PLUS, 0]), (2, Some(2)));
    assert_eq!(wrong(2, &[NOT, PLUS, ALL, ALL]), (3, Some(3)));
    assert_eq!(wrong(2, &[NOT, PLUS, ALL]), (4, Some(0)));
    assert_eq!(wrong(2, &[NOT, 0x02000002]), (13, None));
    assert_eq!(write_text(2, 3, &[0x03000003], &mut output), Ok(13));
    assert_eq!(&output, b"policy: {0,1}");
}

#[test]
fn writing_then_reading_and_reading_then_writing_change_nothing() {
    let mut random = Random::new(23);
    for turn in 0..4000 {
        let style = Style { users: 1 + turn % 16, roles: 1 + turn / 16 % 16, lean: 50 };
        let words = random.between(1, 60);
        let term = terms::term(&mut random, style, words);
        let text = text_of(&term);
        let mut cut = text.clone();
        cut.remove(random.below(text.len()));
        for bytes in [text.clone(), cut] {
            if let Ok(other) = read_alone(&bytes) {
                assert_eq!(text_of(&other), bytes);
                assert_eq!(build(&other.words()), Some(other));
            }
        }
        if text.len() <= MOST_BYTES {
            assert_eq!(read_alone(&text), Ok(term));
        }
    }
}
