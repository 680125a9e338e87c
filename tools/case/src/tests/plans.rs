//! Names, permissions and workflows: texts and files of five pairs, and what is told of faulty ones.

use super::{message, LISTING_TEXT};
use crate::arguments::Verb;
use crate::file::{self, Case, Secure};
use crate::words::Language;
use crate::{answer, monitor, plan, run, show, text};

/// A text in which everything has a name.
pub const NAMED: &str = "users Anna Bert
roles counter approver
actions
  1: count
  9: approve
policy
  apart(role counter, role approver)
grants
  Anna: counter
  Bert: counter approver
permissions
  counter: count
  approver: approve 63
workflow
  states begun counted approved
  final approved
  begun: count -> counted
  counted: count -> counted
  counted: approve -> approved
events
  act Anna count
  grant Anna approver
  act Bert approve
  close
";

/// The same in numbers.
const NUMBERED: &str = "users 2
roles 2
policy
  apart(role 0, role 1)
grants
  0: 0
  1: 0 1
permissions
  0: 1
  1: 9 63
workflow
  states 3
  final 2
  0: 1 -> 1
  1: 1 -> 1
  1: 9 -> 2
events
  act 0 1
  grant 0 1
  act 1 9
  close
";

/// The case that a text says.
fn case(text: &str) -> Case {
    file::read(&text::write(text).expect(text)).expect("a case file")
}

/// The text in numbers with this in place of its permissions and workflow.
fn with_secure(parts: &str) -> String {
    let (first, rest) = NUMBERED.split_once("permissions\n").expect("it has them");
    let (_, events) = rest.split_once("events\n").expect("it has them");
    format!("{first}{parts}events\n{events}")
}

/// What is told where something of a text is replaced.
fn told(text: &str, cases: &[(&str, &str, &str)]) {
    for (old, new, expected) in cases {
        assert!(text.contains(old), "{old}");
        assert_eq!(message(&text.replacen(old, new, 1)), *expected, "{new}");
    }
}

/// What a verb prints.
fn printed(verb: Verb, input: &[u8]) -> String {
    let (bytes, _) = answer(verb, input).expect("it is accepted");
    String::from_utf8(bytes).expect("text")
}

#[test]
fn names_are_numbers() {
    assert_eq!(text::write(NAMED), text::write(NUMBERED));
    let Secure { permissions, workflow } = case(NAMED).secure.expect("five pairs");
    let rows = [1u64 << 1, 1 << 9 | 1 << 63];
    assert_eq!(permissions, rows.map(u64::to_le_bytes).concat());
    assert_eq!(workflow, [3, 3, 1 << 2, 0, 0, 1, 1, 1, 1, 1, 1, 9, 2]);
}

#[test]
fn the_first_offset_tells_how_many_pairs() {
    assert_eq!(text::write(NUMBERED).expect("it is written")[..2], [20, 0]);
    assert_eq!(text::write(LISTING_TEXT).expect("it is written")[..2], [12, 0]);
}

#[test]
fn five_pairs_come_back() {
    for text in [
        NUMBERED.to_string(),
        with_secure("permissions none\nworkflow none\n"),
        with_secure("permissions none\nworkflow\n  states 1\n  final\n"),
        with_secure("permissions\n  0:\n  1: 0 63\nworkflow none\n"),
        with_secure("permissions raw\n  01 02\nworkflow raw\n  05 07 10 00\n"),
        with_secure("permissions\n  0:\n  1:\nworkflow raw\n  01 02 00 00 00 05 00 00 05 00\n"),
    ] {
        let bytes = text::write(&text).expect(&text);
        let shown = text.replace("policy\n  apart(role 0, role 1)", "policy: (r0 apart r1)");
        assert_eq!(show::file(&bytes).text, shown);
    }
}

#[test]
fn parts_stand_in_any_order_and_users_in_sets() {
    let (first, rest) = NAMED.split_once("policy\n").expect("it has one");
    let moved = format!("policy\n{rest}{first}");
    assert_eq!(text::write(&moved), text::write(NAMED));
    let sets =
        |policy: &str| case(&NAMED.replace("apart(role counter, role approver)", policy)).policy;
    assert_eq!(sets("apart(set Anna Bert, set Bert)"), [0x09000000, 0x03000003, 0x03000002]);
    assert_eq!(sets("apart set 0 Bert role 1"), [0x09000000, 0x03000003, 0x02000001]);
}

#[test]
fn malformed_names_are_told() {
    told(
        NAMED,
        &[
            (
                "Anna Bert",
                "Anna 2",
                "line 1: `2` is no name: a letter, then letters, digits, `-` and `_`",
            ),
            ("Anna Bert", "Anna events", "line 1: `events` is a word of texts, and no name"),
            ("Anna Bert", "Anna set", "line 1: `set` is a word of texts, and no name"),
            ("Anna Bert", "Anna nobody", "line 1: `nobody` is a word of texts, and no name"),
            ("Anna Bert", "Anna Anna", "line 1: `Anna` stands here a second time"),
            ("Anna Bert", "3 Anna", "line 1: `users` is followed by one number, or by names"),
            ("Bert: counter", "Carl: counter", "line 10: `Carl` is the name of no user"),
            ("role approver)", "role boss)", "line 7: `boss` is the name of no role"),
            ("Anna: counter", "Anna: 2", "line 9: role 2 is not declared: the last is role 1"),
            ("act Anna count", "act Anna price", "line 21: `price` is the name of no action"),
            ("  1: count", "  1 count", "line 4: a line of the actions is `NUMBER: NAME`"),
            ("  1: count", "  256: count", "line 4: `256` is no number from 0 to 255"),
            ("9: approve", "1: approve", "line 5: action 1 stands here a second time"),
            ("9: approve", "9: count", "line 5: `count` stands here a second time"),
            ("9: approve", "64: approve", "line 13: `approve` is action 64, above 63"),
        ],
    );
    let many = format!("users{}\n", " x".repeat(17));
    assert_eq!(
        message(&NAMED.replace("users Anna Bert\n", &many)),
        "line 1: `x` is one user more than 16"
    );
}

#[test]
fn faulty_permissions_are_told() {
    told(
        NUMBERED,
        &[
            ("1: 9 63", "1: 9 64", "line 10: `64` is no number from 0 to 63"),
            ("1: 9 63", "1: 9 9", "line 10: action 9 stands here a second time"),
            ("1: 9 63", "2: 9", "line 10: role 2 is not declared: the last is role 1"),
            ("  1: 9 63\n", "", "line 9: the line of role 1 is missing behind this one"),
            ("  0: 1\n  1: 9 63\n", "  1: 9\n", "line 9: the line of role 0 is due here"),
            (
                "  1: 9 63",
                "  1 9",
                "line 10: a line of the permissions is `ROLE: ACTION ACTION ..`",
            ),
            ("permissions\n", "permissions none\n", "line 8: `none` stands alone"),
            (
                "  1: 9 63\n",
                "raw\n",
                "line 10: a line of the permissions is `ROLE: ACTION ACTION ..`",
            ),
        ],
    );
    assert_eq!(
        message(&with_secure("permissions none\n")),
        "line 8: `permissions` without `workflow`"
    );
    assert_eq!(
        message(&with_secure("workflow none\n")),
        "line 8: `workflow` without `permissions`"
    );
    let raw = format!("permissions raw{}\nworkflow none\n", " 00".repeat(1025));
    assert_eq!(message(&with_secure(&raw)), "line 8: `raw` is followed by more than 1024 bytes");
    let wrong = with_secure("permissions raw 0x\nworkflow none\n");
    assert_eq!(message(&wrong), "line 8: `0x` is no byte from 00 to ff");
}

#[test]
fn faulty_workflows_are_told() {
    let begins = "a workflow begins with `states` and their number, or their names";
    let finals = "behind the states there is a line `final` with the final ones";
    told(
        NUMBERED,
        &[
            ("  states 3\n", "", &format!("line 12: {begins}")),
            ("  final 2\n", "", &format!("line 13: {finals}")),
            ("states 3", "states 0", "line 12: `0` is no number of states from 1 to 16"),
            ("states 3", "states 17", "line 12: `17` is no number of states from 1 to 16"),
            ("states 3", "states", "line 12: `states` is followed by one number, or by names"),
            ("final 2", "final 3", "line 13: state 3 is not declared: the last is state 2"),
            ("final 2", "final 2 2", "line 13: state 2 stands here a second time"),
            ("0: 1 -> 1", "3: 1 -> 1", "line 14: state 3 is not declared: the last is state 2"),
            ("0: 1 -> 1", "0: 1 -> 3", "line 14: state 3 is not declared: the last is state 2"),
            ("0: 1 -> 1", "0: 64 -> 1", "line 14: `64` is no number from 0 to 63"),
            ("0: 1 -> 1", "0: 1 1", "line 14: a transition is `STATE: ACTION -> NEXT`"),
            ("0: 1 -> 1", "0 1 -> 1", "line 14: a transition is `STATE: ACTION -> NEXT`"),
            ("1: 9 -> 2", "1: 1 -> 2", "line 16: the same state and action as in line 15"),
            ("1: 9 -> 2", "1: 1 -> 1", "line 16: the same state and action as in line 15"),
        ],
    );
    let (none, states) = (format!("line 10: {begins}"), format!("line 11: {finals}"));
    assert_eq!(
        message(&with_secure("permissions\n0:\nworkflow\n")),
        "line 9: the line of role 1 is missing behind this one"
    );
    assert_eq!(message(&with_secure("permissions none\n\nworkflow\n")), none);
    assert_eq!(message(&with_secure("permissions none\n\nworkflow\nstates 2\n")), states);
    let many: String =
        (0..65).map(|place| format!("{}: {} -> 0\n", place / 64, place % 64)).collect();
    let many = with_secure(&format!("permissions none\nworkflow\nstates 2\nfinal\n{many}"));
    assert_eq!(message(&many), "line 76: one transition more than 64");
}

#[test]
fn out_of_form_says_why() {
    let reason = |permissions: &[u8], workflow: &[u8]| {
        let secure = Secure { permissions: permissions.to_vec(), workflow: workflow.to_vec() };
        let case = Case { secure: Some(secure), ..case(NUMBERED) };
        let report = run::report(&file::write(&case), None);
        let sentence = "permissions or workflow out of form, or one without the other";
        let (_, own) = report.text.split_once(sentence).expect("it is refused");
        assert!(report.text.starts_with("refused 19  ") && !report.accepted);
        own.trim_end().to_string()
    };
    let two = [0xff; 16];
    assert_eq!(reason(&[], &[1, 0, 0, 0]), ": a workflow without permissions");
    assert_eq!(reason(&two, &[]), ": permissions without a workflow");
    assert_eq!(reason(&[0; 15], &[0]), ": permissions of 15 bytes, not 16 for 2 roles");
    assert_eq!(reason(&two, &[1, 0, 0]), ": a workflow of 3 bytes, fewer than 4");
    assert_eq!(reason(&two, &[1, 1, 0, 0]), ": a workflow of 4 bytes, not 7 for 1 transitions");
    assert_eq!(reason(&two, &[1, 65, 0, 0]), ": 65 transitions, more than 64");
    assert_eq!(reason(&two, &[0, 0, 0, 0]), ": 0 states, not 1 to 16");
    assert_eq!(reason(&two, &[17, 0, 0, 0]), ": 17 states, not 1 to 16");
    assert_eq!(reason(&two, &[2, 0, 4, 0]), ": final state 2 of 2 states");
    assert_eq!(reason(&two, &[2, 1, 0, 0, 2, 0, 0]), ": state 2 of 2 states, in transition 0");
    assert_eq!(reason(&two, &[2, 1, 0, 0, 0, 0, 3]), ": state 3 of 2 states, in transition 0");
    assert_eq!(reason(&two, &[2, 1, 0, 0, 0, 64, 0]), ": action 64, above 63, in transition 0");
    assert_eq!(
        reason(&two, &[2, 3, 0, 0, 0, 7, 1, 1, 7, 0, 0, 7, 1]),
        ": state 0 with action 7 in transitions 0 and 2"
    );
}

#[test]
fn a_reason_is_told_exactly_with_19() {
    let mut state = 5u32;
    let mut below = |bound: u32| {
        state = state.wrapping_mul(1664525).wrapping_add(1013904223);
        (state >> 8) % bound
    };
    let mut seen = [0; 2];
    for _ in 0..20_000 {
        let count = below(4) as u8;
        let mut workflow = vec![1 + below(17) as u8, count, below(8) as u8, 0];
        workflow
            .extend((0..3 * count).map(|place| below(if place % 3 == 1 { 66 } else { 4 }) as u8));
        workflow.truncate(workflow.len() - usize::from(below(20) == 0));
        let permissions = vec![0; if below(20) == 0 { below(24) } else { 16 } as usize];
        let case = Case { secure: Some(Secure { permissions, workflow }), ..case(NUMBERED) };
        let number = monitor::open(&case).map_or_else(|refused| refused.number, |_| 0);
        assert_eq!(plan::read(&case).is_err(), number == 19, "{case:?}");
        let bytes = file::write(&case);
        assert_eq!(text::write(&show::file(&bytes).text), Ok(bytes), "{case:?}");
        seen[usize::from(number == 19)] += 1;
    }
    assert!(seen.iter().all(|count| *count > 2000), "{seen:?}");
}

#[test]
fn a_run_has_the_names_of_its_text() {
    let expected = "\
1 0 o  act Anna count       may act: count approve by Bert  accepted
2 0 o  grant Anna approver  may act: count approve by Bert  accepted
3 0 c  act Bert approve     may act: nobody                 accepted
4 0 d  close                may act: nobody                 accepted
taken 2  may act: nobody
";
    assert_eq!(printed(Verb::Run, NAMED.as_bytes()), expected);
}

#[test]
fn who_may_act_is_told_for_each_action() {
    let bytes = text::write(NUMBERED).expect("it is written");
    let expected = "\
1 0 o  act 0 1    may act: 1 9 by 1  accepted
2 0 o  grant 0 1  may act: 1 9 by 1  accepted
3 0 c  act 1 9    may act: nobody    accepted
4 0 d  close      may act: nobody    accepted
taken 2  may act: nobody
";
    assert_eq!(printed(Verb::Run, &bytes), expected);
    let begins = NUMBERED.split("  act").next().unwrap_or_default();
    assert_eq!(printed(Verb::Run, begins.as_bytes()), "taken 0  may act: 1 by 0 1\n");
}

#[test]
fn a_refused_close_says_what_is_missing() {
    let closes = |policy: &str, finals: &str, events: &str| {
        let text = NUMBERED.replace("apart(role 0, role 1)", policy).replace("final 2", finals);
        let (first, _) = text.split_once("  act").expect("it has events");
        let text = printed(Verb::Run, format!("{first}{events}  close\n").as_bytes());
        text.lines().rev().nth(1).and_then(|line| line.split("  ").last()).unwrap_or("").to_string()
    };
    let apart = "apart(role 0, role 1)";
    assert_eq!(closes(apart, "final 0", ""), "close, but not satisfied");
    let both = "close, but not satisfied, and the workflow is in no final state";
    assert_eq!(closes(apart, "final 2", ""), both);
    let state = "close, but the workflow is in no final state";
    assert_eq!(closes("role 0", "final 2", "  act 0 1\n"), state);
    assert_eq!(closes("role 0", "final 1", "  act 0 1\n"), "accepted");
}

#[test]
fn words_have_the_bytes_too() {
    let c = printed(Verb::Words(Language::C), NAMED.as_bytes());
    let (_, arrays) = c.split_once("};\n").expect("the policy's array");
    let expected = "\
static const uint8_t permissions[16] = {
    0x02, 0x00, 0x00, 0x00, 0x00, 0x00, 0x00, 0x00, /* role 0: 1 */
    0x00, 0x02, 0x00, 0x00, 0x00, 0x00, 0x00, 0x80, /* role 1: 9 63 */
};
static const uint8_t workflow[13] = {
    0x03, 0x03, 0x04, 0x00, /* 3 states, 3 transitions, final: 2 */
    0x00, 0x01, 0x01, /* 0: 1 -> 1 */
    0x01, 0x01, 0x01, /* 1: 1 -> 1 */
    0x01, 0x09, 0x02, /* 1: 9 -> 2 */
};
";
    assert_eq!(arrays, expected);
    let bytes = text::write(NAMED).expect("it is written");
    let rust = printed(Verb::Words(Language::Rust), NAMED.as_bytes());
    assert_eq!(printed(Verb::Words(Language::Rust), &bytes), rust);
    assert!(rust.contains("\nconst PERMISSIONS: [u8; 16] = [\n"), "{rust}");
    assert!(rust.contains("\n    0x01, 0x09, 0x02, // 1: 9 -> 2\n];\n"), "{rust}");
    let without = with_secure("permissions none\nworkflow none\n");
    assert!(!printed(Verb::Words(Language::C), without.as_bytes()).contains("uint8_t"));
    let alone = with_secure("permissions none\nworkflow\nstates 1\nfinal\n");
    let refused = answer(Verb::Words(Language::C), alone.as_bytes());
    assert_eq!(refused, Err("refused 19: a workflow without permissions".to_string()));
}

#[test]
fn a_policy_is_read_whatever_stands_beside_it() {
    let faulty = with_secure("permissions\n  x\n");
    let expected = "policy: (r0 apart r1)\n# apart(role 0, role 1)\n";
    assert_eq!(printed(Verb::Normal, faulty.as_bytes()), expected);
}

#[test]
fn the_longest_case_of_five_pairs_has_a_file() {
    let policy = "either(everyone, ".repeat(15) + "everyone" + &")".repeat(15);
    let rows = |to: u32| -> String {
        let all: String = (0..to).map(|number| format!(" {number}")).collect();
        (0..16).map(|key| format!("{key}:{all}\n")).collect()
    };
    let transitions: String =
        (0..64).map(|action| format!("{}: {action} -> 15\n", action % 16)).collect();
    let text = format!(
        "users 16\nroles 16\npolicy {policy}\ngrants\n{}permissions\n{}workflow\nstates 16\nfinal 0 15\n\
         {transitions}events\n{}",
        rows(16),
        rows(64),
        "close\n".repeat(256)
    );
    let bytes = text::write(&text).expect("it is written");
    assert_eq!(bytes.len(), 20 + 4 * 31 + 2 + 2 * 16 + 4 * 256 + 8 * 16 + 4 + 3 * 64);
    assert_eq!(text::write(&show::file(&bytes).text), Ok(bytes));
}
