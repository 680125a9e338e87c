//! Words, normal forms and whole alternatives.

use super::{with_policy, LISTING_TEXT};
use crate::arguments::Verb;
use crate::text::policy_alone;
use crate::words::{array, Language};
use crate::{answer, monitor};

/// What a verb prints for a text.
fn printed(verb: Verb, text: &str) -> Result<String, String> {
    let (bytes, well) = answer(verb, text.as_bytes())?;
    assert!(well);
    Ok(String::from_utf8(bytes).expect("text"))
}

#[test]
fn words_are_arrays() {
    let case = policy_alone("users 2\nroles 2\npolicy apart(not role 1, set 0 1)").expect("text");
    let c = "\
/* policy: (not r1 apart {0,1}) */
static const uint32_t policy[4] = {
    0x09000000, /* apart */
    0x04000000, /*   not */
    0x02000001, /*     role 1 */
    0x03000003, /*   set 0 1 */
};
";
    assert_eq!(array(Language::C, &case.policy, case.counts()), c);
    let rust = "\
// policy: (not r1 apart {0,1})
const POLICY: [u32; 4] = [
    0x09000000, // apart
    0x04000000, //   not
    0x02000001, //     role 1
    0x03000003, //   set 0 1
];
";
    assert_eq!(array(Language::Rust, &case.policy, case.counts()), rust);
}

#[test]
fn normal_forms_are_readable() {
    let expected = "\
policy: (plus all with (r0 apart (r2 or (r0 apart r0))))
# together(
#   plus everyone,
#   apart(role 0, either(role 2, apart(role 0, role 0))))
";
    assert_eq!(printed(Verb::Normal, LISTING_TEXT).as_deref(), Ok(expected));
    assert_eq!(printed(Verb::Normal, expected).as_deref(), Ok(expected));
}

#[test]
fn equal_policies_have_one_normal_form() {
    let normal = |policy: &str| printed(Verb::Normal, &with_policy(policy));
    let one = normal("apart(role 2, apart(role 0, role 1))");
    let expected = "policy: (r0 apart (r1 apart r2))\n# apart(role 0, apart(role 1, role 2))\n";
    assert_eq!(one.as_deref(), Ok(expected));
    assert_eq!(one, normal("apart(apart(role 1, role 0), role 2)"));
    assert_ne!(one, normal("apart(role 2, together(role 0, role 1))"));
}

#[test]
fn not_is_never_taken_away() {
    for (policy, text) in [
        ("not not everyone", "not not all"),
        (
            "apart(not not not set 3, plus not not role 0)",
            "(not not not {3} apart plus not not r0)",
        ),
    ] {
        let normal = printed(Verb::Normal, &with_policy(policy));
        assert_eq!(normal, Ok(format!("policy: {text}\n# {policy}\n")));
    }
}

#[test]
fn alternatives_are_readable() {
    let whole = |policy: &str| printed(Verb::Alternatives, &with_policy(policy));
    let expected = "\
policy: ((r0 with r1) or (r0 with r2))
# either(together(role 0, role 1), together(role 0, role 2))
";
    assert_eq!(whole("together(role 0, either(role 1, role 2))").as_deref(), Ok(expected));
    assert_eq!(printed(Verb::Alternatives, expected).as_deref(), Ok(expected));
    let expected = "\
policy: (((r0 apart r2) with plus all) or ((r0 apart (r0 apart r0)) with plus all))
# either(
#   together(apart(role 0, role 2), plus everyone),
#   together(apart(role 0, apart(role 0, role 0)), plus everyone))
";
    assert_eq!(printed(Verb::Alternatives, LISTING_TEXT).as_deref(), Ok(expected));
    let expected = "policy: plus (r1 or r2)\n# plus either(role 1, role 2)\n";
    assert_eq!(whole("plus either(role 1, role 2)").as_deref(), Ok(expected));
}

#[test]
fn alternatives_of_too_many_words_are_refused() {
    let duty = "either(role 0, role 1)";
    let two = format!("together({duty}, {duty})");
    let refused = printed(Verb::Alternatives, &with_policy(&format!("apart({two}, {two})")));
    let told = "refused 1 at 0: as whole alternatives the policy has more than 31 words";
    assert_eq!(refused, Err(told.to_string()));
}

#[test]
fn the_counts_and_the_policy_are_enough() {
    let policy = "users 1\nroles 1\npolicy plus everyone\n";
    let expected = "policy: plus all\n# plus everyone\n";
    assert_eq!(printed(Verb::Normal, policy).as_deref(), Ok(expected));
    let missing = printed(Verb::Normal, "users 1\nroles 1\n");
    assert_eq!(missing, Err("line 2: the part `policy` is missing".to_string()));
}

#[test]
fn refused_policies_have_no_words() {
    let words = [Language::C, Language::Rust].map(Verb::Words);
    for verb in [Verb::Normal, Verb::Alternatives, words[0], words[1]] {
        let refused = printed(verb, &with_policy("plus together(everyone, everyone)"));
        let told = refused.expect_err("it is refused");
        assert!(told.starts_with("line 3: refused 4 at 0: this not or plus stands over"), "{told}");
        assert!(told.ends_with("\n  plus together(everyone, everyone)\n  ^^^^"), "{told}");
    }
    let case = policy_alone(&with_policy("word 0x02000009")).expect("text");
    assert_eq!(monitor::normal_form(&case).map_err(|refused| refused.number), Err(2));
}

#[test]
fn case_files_have_policies_too() {
    let bytes = crate::text::write(LISTING_TEXT).expect("it is written");
    let (from_file, _) = answer(Verb::Normal, &bytes).expect("a policy");
    let (from_text, _) = answer(Verb::Normal, LISTING_TEXT.as_bytes()).expect("a policy");
    assert_eq!(from_file, from_text);
    let malformed = answer(Verb::Normal, &bytes[..95]);
    let expected = "malformed (14): the events part ends at byte 96 of a file of 95";
    assert_eq!(malformed, Err(expected.to_string()));
}
