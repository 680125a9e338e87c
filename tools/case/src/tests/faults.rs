//! What is told of faulty texts.

use super::{message, with_policy, LISTING_TEXT};
use crate::quote::{plain, quoted};
use crate::text;

/// Replaces something in listing L, and compares what is told.
fn told(cases: &[(&str, &str, &str)]) {
    for (old, new, expected) in cases {
        assert!(LISTING_TEXT.contains(old), "{old}");
        assert_eq!(message(&LISTING_TEXT.replacen(old, new, 1)), *expected, "{new}");
    }
}

#[test]
fn what_is_undeclared() {
    told(&[
        ("either(role 2", "either(role 3", "line 5: role 3 is not declared: the last is role 2"),
        ("plus everyone", "set 0 3", "line 6: user 3 is not declared: the last is user 2"),
        ("  1: 0", "  1: 3", "line 9: role 3 is not declared: the last is role 2"),
        ("act 2 3", "act 3 3", "line 17: user 3 is not declared: the last is user 2"),
        ("grant 1 2", "grant 3 2", "line 14: user 3 is not declared: the last is user 2"),
        ("grant 1 2", "revoke 1 3", "line 14: role 3 is not declared: the last is role 2"),
        ("grant 1 2", "withdraw 1 255", "line 14: role 255 is not declared: the last is role 2"),
    ]);
}

#[test]
fn what_is_missing() {
    told(&[
        ("users 3\n", "", "line 19: the part `users` is missing"),
        ("roles 3", "roles", "line 2: `roles` is followed by one number, or by names"),
        ("role 2, apart", "role, apart", "line 5: a role is missing before `,`"),
        ("plus everyone)", "set)", "line 6: a user is missing before `)`"),
        ("plus everyone)", "word", "line 6: a number is missing at the end of the policy"),
        ("(role 0, role 0))),", "(role 0))),", "line 5: side 2 of `apart` is missing before `)`"),
        ("role 0, role 0", "role 0 role 0", "line 5: `,` is missing before `role`"),
        ("plus everyone)", "plus)", "line 6: side 1 of `plus` is missing before `)`"),
        (
            "plus everyone)",
            "",
            "line 5: side 2 of `together` (line 4) is missing at the end of the policy",
        ),
        ("plus everyone)", "plus everyone", "line 6: `)` is missing at the end of the policy"),
        ("  1: 0\n", "", "line 9: the line of user 1 is due here"),
        ("  2:\n", "", "line 9: the line of user 2 is missing behind this one"),
        ("events\n", "", "line 11: a line of the grants is `USER: ROLE ROLE ..`"),
        ("grant 1 2", "grant 1", "line 14: this event is `grant USER ROLE`"),
        ("act 2 3", "act 2", "line 17: an action is `act USER NUMBER`"),
        ("act 2 3", "word", "line 17: `word` is followed by one number"),
    ]);
    assert_eq!(message(""), "line 1: the part `users` is missing");
    assert_eq!(message("users 1\nroles 1\n"), "line 2: the part `policy` is missing");
    assert_eq!(
        message(&with_policy("")),
        "line 3: a policy word is missing at the end of the policy"
    );
}

#[test]
fn what_is_too_many() {
    told(&[
        ("users 3", "users 17", "line 1: `17` is no number of users from 1 to 16"),
        ("users 3", "users 0", "line 1: `0` is no number of users from 1 to 16"),
        ("users 3", "users 3 4", "line 1: `users` is followed by one number, or by names"),
        ("roles 3", "roles 300", "line 2: `300` is no number of roles from 1 to 16"),
        ("plus everyone)", "everyone, role 1)", "line 6: one side more than the 2 of `together`"),
        ("plus everyone)", "plus everyone))", "line 6: `)` stands behind the end of the policy"),
        ("everyone)", "everyone) role 1", "line 6: `role` stands behind the end of the policy"),
        ("plus everyone)", "set 1 1)", "line 6: user 1 stands here a second time"),
        ("  1: 0", "  1: 0 0", "line 9: role 0 stands here a second time"),
        ("  2:\n", "  2:\n  3:\n", "line 11: user 3 is not declared: the last is user 2"),
        ("act 2 3", "act 2 3 4", "line 17: an action is `act USER NUMBER`"),
        ("act 2 3", "close 2", "line 17: `close` stands alone"),
        ("act 2 3", "users 4", "line 17: `users` stands here a second time"),
        ("act 2 3", "bytes", "line 17: `bytes` stands alone, with no other part"),
    ]);
    let events = with_policy("everyone") + &"close\n".repeat(257);
    assert_eq!(message(&events), "line 266: one event more than 256");
    let words = with_policy(&("either(\neveryone, ".repeat(16) + "everyone" + &")".repeat(16)));
    assert_eq!(message(&words), "line 19: `everyone` is one word more than 31");
}

#[test]
fn what_is_no_word_number_or_sign() {
    told(&[
        ("users 3", "user 3", "line 1: `user`, but no part has begun"),
        ("plus everyone)", "plus all)", "line 6: `all` is no policy word"),
        ("plus everyone)", "role +1)", "line 6: `+1` is no number from 0 to 65535"),
        ("plus everyone)", "role -1)", "line 6: `-1` is no number from 0 to 65535"),
        (
            "plus everyone)",
            "(role 1))",
            "line 6: side 2 of `together` (line 4) is missing before `(`",
        ),
        (
            "plus everyone",
            "role 1(role 2)",
            "line 6: parentheses behind `role`, which has no sides",
        ),
        ("  1: 0", "  x: 0", "line 9: `x` is no number from 0 to 65535"),
        ("  1: 0", "  1 0", "line 9: a line of the grants is `USER: ROLE ROLE ..`"),
        ("  1: 0", "  2: 0", "line 9: the line of user 1 is due here"),
        ("act 2 3", "acts 2 3", "line 17: `acts` is no event"),
        ("act 2 3", "act 2 256", "line 17: `256` is no number from 0 to 255"),
        ("act 2 3", "word 0x100000000", "line 17: `0x100000000` is no number from 0 to 4294967295"),
    ]);
    assert_eq!(message("bytes\n 0c 1g"), "line 2: `1g` is no byte from 00 to ff");
    assert_eq!(message("bytes\n 0c +1"), "line 2: `+1` is no byte from 00 to ff");
}

#[test]
fn no_nesting_is_too_deep() {
    let deep = 100_000;
    let terms = ["not(", "not ", "apart(role 0, ", "apart(", "apart apart(", "word 0x04000000("];
    for opening in terms {
        let policy = opening.repeat(deep) + "role 0" + &")".repeat(deep);
        let told = message(&with_policy(&policy));
        assert!(told.ends_with("is one word more than 31"), "{opening}: {told}");
    }
    for signs in ["(", ")", ",", ":"] {
        let told = message(&with_policy(&signs.repeat(deep)));
        let expected = format!("line 3: a policy word is missing before `{signs}`");
        assert_eq!(told, expected);
    }
}

#[test]
fn byte_order_marks_are_named() {
    let told = |bytes: &[u8]| text::decode(bytes).expect_err("no text").to_string();
    let expected =
        |whose| format!("line 1: a byte order mark of {whose}: save the text as UTF-8 without it");
    assert_eq!(told(b"\xef\xbb\xbfusers 3\n"), expected("UTF-8"));
    assert_eq!(told(b"\xff\xfeu\0s\0e\0r\0s\0"), expected("UTF-16"));
    assert_eq!(told(b"\xfe\xff\0u\0s\0e\0r\0s"), expected("UTF-16"));
    assert!(!text::is_case_file(b"\xff\xfeu\0s\0e\0r\0s\0"));
}

#[test]
fn other_bytes_have_their_line() {
    let told = |bytes: &[u8]| text::decode(bytes).expect_err("no text").to_string();
    assert_eq!(told(b"users 3\nroles \xff\n"), "line 2: a byte that is not UTF-8");
    assert_eq!(told(b"users 3\n\nroles \0\n"), "line 3: a zero byte, which no text has");
}

#[test]
fn quotations_are_short_and_harmless() {
    assert_eq!(quoted("role"), "`role`");
    assert_eq!(quoted("r\u{f4}le \u{3b1}"), "`r\u{f4}le \u{3b1}`");
    assert_eq!(plain("\u{1b}[31m\n\0\u{7f}\u{9b}"), r"\u{1b}[31m\n\0\u{7f}\u{9b}");
    assert_eq!(plain("\u{202e}\u{200b}"), r"\u{202e}\u{200b}");
    assert_eq!(plain(&"x".repeat(40)), "x".repeat(40));
    assert_eq!(plain(&"x".repeat(41)), "x".repeat(40) + "..");
    for c in (0..=0xffff).filter_map(char::from_u32) {
        let shown = plain(&c.to_string().repeat(50));
        assert!(shown.chars().count() <= 42 && !shown.chars().any(char::is_control), "{c:?}");
    }
    let long = format!("line 3: `{}..` is no policy word", "x".repeat(40));
    assert_eq!(message(&with_policy(&"x".repeat(5000))), long);
}
