//! Texts and files against each other.

use reference::casefile::read_case;
use reference::examples::LISTING_L;
use reference::generate::case_files;

use super::{with_policy, words, LISTING_TEXT};
use crate::{file, show, text};

#[test]
fn listing_l_is_written_and_shown() {
    assert_eq!(text::write(LISTING_TEXT), Ok(LISTING_L.to_vec()));
    let shown = show::file(&LISTING_L).text;
    let (first, rest) = LISTING_TEXT.split_once("policy\n").expect("it has one");
    let (_, rest) = rest.split_once("grants\n").expect("it has them");
    let line = "policy: ((r0 apart (r2 or (r0 apart r0))) with plus all)";
    assert_eq!(shown, format!("{first}{line}\ngrants\n{rest}"));
}

#[test]
fn every_generated_file_comes_back() {
    for (name, bytes) in case_files(5, 6000) {
        let shown = show::file(&bytes);
        assert_eq!(text::write(&shown.text), Ok(bytes.clone()), "{name}:\n{}", shown.text);
        let well_formed = read_case(&bytes).is_ok();
        assert_eq!(file::read(&bytes).is_ok(), well_formed, "{name}");
        assert_eq!(shown.malformed.is_none(), well_formed, "{name}");
        assert_eq!(shown.text.starts_with("# malformed (14): "), !well_formed, "{name}");
    }
}

#[test]
fn parentheses_blanks_and_comments_may_differ() {
    let expected = [0x08000000, 0x02000000, 0x09000000, 0x04000000, 0x01000000, 0x03000009];
    for policy in [
        "together(role 0, apart(not everyone, set 0 3))",
        "together role 0 apart not everyone set 0 3",
        "together(role 0, apart not(everyone) set 0 3)",
        "together(\n # a comment\n role 0 ,apart( not everyone,\nset 3 0))",
        "together(role 0x0, apart(not everyone, word 0x03000009))",
    ] {
        assert_eq!(words(policy), expected, "{policy}");
    }
}

#[test]
fn revoke_has_two_names() {
    let event = |line: &str| {
        let bytes = text::write(&(with_policy("everyone") + line)).expect(line);
        file::read(&bytes).expect("a case file").events
    };
    assert_eq!(event("revoke 1 2"), [0x03000102]);
    assert_eq!(event("withdraw 1 2"), [0x03000102]);
    let bytes = text::write(&(with_policy("everyone") + "withdraw 1 2")).expect("it is written");
    assert!(show::file(&bytes).text.ends_with("events\n  revoke 1 2\n"));
}

#[test]
fn any_word_can_be_written() {
    assert_eq!(words("word 0x0a000000"), [0x0a000000]);
    assert_eq!(words("word 0x02000010"), [0x02000010]);
    assert_eq!(words("word 0x08000001(role 0, word 7)"), [0x08000001, 0x02000000, 7]);
    assert_eq!(words("plus together(everyone, everyone)")[..2], [0x05000000, 0x08000000]);
    let text = with_policy("everyone") + "word 0x01000400\nword 0xffffffff\n";
    let bytes = text::write(&text).expect("it is written");
    assert_eq!(file::read(&bytes).expect("a case file").events, [0x01000400, 0xffffffff]);
}

#[test]
fn what_a_text_cannot_name_is_shown_as_a_word() {
    let text = with_policy("apart(word 0x02000003, word 0x03000010)") + "word 0x01000400\n";
    let shown = show::file(&text::write(&text).expect("it is written")).text;
    assert!(shown.contains("\n  apart(word 0x02000003, word 0x03000010)\n"), "{shown}");
    assert!(shown.ends_with("\n  word 0x01000400\n"), "{shown}");
}

#[test]
fn what_only_bytes_say_is_readable_all_the_same() {
    let bytes = reference::casefile::join_parts(&[0, 0, 0, 9], &[1, 1, 1, 0], &[]);
    let shown = show::file(&bytes);
    let expected = "# only bytes say this, since side 1 of `apart` is missing at the end of the \
                    policy\n#   users 1\n#   roles 1\n#   policy\n#     apart\n#   grants\n\
                    #     0: 0\n#   events\nbytes\n  0c 00 04 00 10 00 04 00 14 00 00 00 00 00 00 \
                    09\n  01 01 01 00\n";
    assert_eq!(shown.text, expected);
    assert_eq!(shown.malformed, None);
}

#[test]
fn long_terms_are_broken_into_lines() {
    // a policy that is refused, since an accepted one is shown as one line
    let chain = "either(role 0, ".repeat(12) + "role 1" + &")".repeat(12);
    let chain = chain.replacen("role 0", "not plus role 0", 1);
    let text = show::file(&text::write(&with_policy(&chain)).expect("it is written")).text;
    assert!(text.lines().all(|line| line.len() <= 72), "{text}");
    assert!(
        text.contains("  either(\n    not plus role 0,\n    either(\n      role 0,\n"),
        "{text}"
    );
}

#[test]
fn the_longest_case_has_a_file() {
    let policy = "either(everyone, ".repeat(15) + "everyone" + &")".repeat(15);
    let rows: String = (0..16).map(|user| format!("{user}: {user}\n")).collect();
    let events = "close\n".repeat(256);
    let text = format!("users 16\nroles 16\npolicy {policy}\ngrants\n{rows}events\n{events}");
    let bytes = text::write(&text).expect("it is written");
    assert_eq!(bytes.len(), 12 + 4 * 31 + 2 + 2 * 16 + 4 * 256);
    assert_eq!(text::write(&show::file(&bytes).text), Ok(bytes));
}
