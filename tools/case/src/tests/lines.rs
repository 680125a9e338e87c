//! Policies in document 02's text, one line each.

use reference::generate::case_files;

use super::{message, with_policy, words};
use crate::arguments::Verb;
use crate::file::{self, Case};
use crate::names::bits;
use crate::text::policy_alone;
use crate::{answer, monitor, show, text};

/// A case text for four users and three roles with this line as its policy's.
fn with_line(line: &str) -> String {
    with_policy("").replace("policy ", line)
}

/// The words of a line.
fn line_words(line: &str) -> Vec<u32> {
    let bytes = text::write(&with_line(line)).expect(line);
    file::read(&bytes).expect("a case file").policy
}

/// What is told of a line, which is the third.
fn told(line: &str) -> String {
    let told = message(&with_line(line));
    told.strip_prefix("line 3: ").expect(&told).to_string()
}

/// A term as the paper writes it, taken off the words.
fn spelled(words: &mut impl Iterator<Item = u32>) -> String {
    let word = words.next().expect("a word");
    let operand = word & 0x00ff_ffff;
    match word >> 24 {
        1 => "all".to_string(),
        2 => format!("r{operand}"),
        3 => {
            let users: Vec<String> = bits(operand.into()).map(|user| user.to_string()).collect();
            format!("{{{}}}", users.join(","))
        }
        4 => format!("not {}", spelled(words)),
        5 => format!("plus {}", spelled(words)),
        kind => {
            let name = ["or", "both", "with", "apart"][kind as usize - 6];
            let left = spelled(words);
            format!("({left} {name} {})", spelled(words))
        }
    }
}

#[test]
fn a_line_says_what_the_words_say() {
    for (line, policy) in [
        ("all", "everyone"),
        ("r2", "role 2"),
        ("{0,1,3}", "set 0 1 3"),
        ("not {3}", "not set 3"),
        ("plus r1", "plus role 1"),
        ("(r0 or r1)", "either(role 0, role 1)"),
        ("(r0 both r1)", "both(role 0, role 1)"),
        ("(r0 with r1)", "together(role 0, role 1)"),
        ("(r0 apart r1)", "apart(role 0, role 1)"),
        (
            "((r0 or not r1) apart (plus all with (r2 both {1,3})))",
            "apart(either(role 0, not role 1), together(plus everyone, both(role 2, set 1 3)))",
        ),
    ] {
        assert_eq!(line_words(&format!("policy: {line}")), words(policy), "{line}");
    }
}

#[test]
fn blanks_and_comments_around_it_are_the_lines() {
    let expected = words("apart(role 0, role 1)");
    for line in [
        "policy: (r0 apart r1)",
        "  policy: (r0 apart r1)",
        "\tpolicy: (r0 apart r1) \t ",
        "policy: (r0 apart r1)   # one counts, another approves",
        "policy: (r0 apart r1)#",
        "policy: (r0 apart r1)\r",
        "# the policy\npolicy: (r0 apart r1)\n\n# is one line",
    ] {
        assert_eq!(line_words(line), expected, "{line:?}");
    }
    for line in ["policy:  all", "policy: ( r0 apart r1)", "policy: (r0 apart\tr1)", "policy: a#ll"]
    {
        assert!(told(line).starts_with("refused 21: what stands behind `policy: ` is"), "{line:?}");
    }
}

#[test]
fn each_number_is_told() {
    let opening = "refused 20: the text does not begin with `policy: `";
    for line in ["policy:", "policy:all", "policy:\tall", "policy:\u{a0}all", "policy:\u{a0}"] {
        assert_eq!(told(line), opening, "{line:?}");
    }
    let text = "refused 21: what stands behind `policy: ` is not exactly one term, \
                or the text has more than 1,024 bytes";
    let long = format!("policy: {}all", "not ".repeat(254));
    for line in ["policy: ", "policy: r16", "policy: r00", "policy: {}", "policy: {1,0}", &long] {
        assert_eq!(told(line), text, "{line:?}");
    }
    let count = "refused 1 at 0: the policy has no word, or more than 31\n  policy: not not not ";
    let most = format!("policy: {}all", "not ".repeat(253));
    assert!(told(&most).starts_with(count), "{}", told(&most));
}

#[test]
fn words_at_fault_are_marked() {
    let is = |line: &str, refused: &str, mark: &str| {
        let told = told(line);
        let lines: Vec<&str> = told.lines().collect();
        assert!(lines[0].starts_with(&format!("{refused}: ")), "{told}");
        assert_eq!(lines[1..], [format!("  {line}"), format!("  {mark}")], "{told}");
    };
    is("policy: r3", "refused 2 at 0", "        ^^");
    is("policy: {0,4}", "refused 2 at 0", "        ^^^^^");
    is("policy: (r0 apart {3,15})", "refused 2 at 2", "                  ^^^^^^");
    is("policy: (r15 or r15)", "refused 2 at 1", "         ^^^");
    is("policy: ((r0 or r3) apart r4)", "refused 2 at 3", "                ^^");
    is("policy: plus (all with all)", "refused 4 at 0", "        ^^^^");
    is("policy: (not all apart not plus all)", "refused 4 at 3", "                       ^^^");
    is(
        "policy: (r0 apart (r1 with not (all with all)))",
        "refused 4 at 4",
        "                           ^^^",
    );
}

#[test]
fn of_a_long_text_what_is_near_is_shown() {
    let chain = "(all or ".repeat(6) + "all" + &")".repeat(6);
    let is = |term: &str, lines: [&str; 2]| {
        let told = told(&format!("policy: {term}"));
        assert_eq!(told.lines().skip(1).collect::<Vec<&str>>(), lines, "{term}");
    };
    is(
        &format!("(not plus all with {chain})"),
        [
            "  policy: (not plus all with (all or (all or (all or (all or (all or (all ..",
            "           ^^^",
        ],
    );
    is(
        &format!("(({chain} with not plus all) with {chain})"),
        [
            ".. (all or all)))))) with not plus all) with (all or (all or (all or (all ..",
            "                          ^^^",
        ],
    );
    is(
        &format!("({chain} with not plus all)"),
        [
            ".. or (all or (all or (all or (all or (all or all)))))) with not plus all)",
            "                                                             ^^^",
        ],
    );
}

#[test]
fn the_word_over_the_mark_is_the_one_at_the_place() {
    // each policy once more with its counts too low, so that some word is at fault
    let mut marks = 0;
    for (name, bytes) in case_files(14, 3000) {
        let Ok(case) = file::read(&bytes) else {
            continue;
        };
        let Ok(line) = monitor::write_text(&case.policy, case.counts()) else {
            continue;
        };
        let input = format!("users 1\nroles 1\n{line}\n");
        let Err(fault) = policy_alone(&input) else {
            continue;
        };
        let refused = monitor::normal_form(&Case { users: 1, roles: 1, ..case.clone() });
        let refused = refused.expect_err(&name);
        let word = case.policy[refused.place.expect("a place")];
        let lines: Vec<&str> = fault.message.lines().collect();
        assert!(lines[0].starts_with(&format!("{refused}: {}", refused.sentence)), "{name}");
        let column = lines[2].find('^').expect("a mark");
        let over = &lines[1][column..lines[2].len()];
        assert_eq!(over, spelled(&mut [word].into_iter()), "{name}:\n{}", fault.message);
        marks += 1;
    }
    assert!(marks > 300, "{marks}");
}

#[test]
fn accepted_policies_alone_are_shown_so() {
    let mut shown = [0; 2];
    for (name, bytes) in case_files(15, 3000) {
        let Ok(case) = file::read(&bytes) else {
            continue;
        };
        let accepted = monitor::normal_form(&case).is_ok();
        let line = monitor::write_text(&case.policy, case.counts());
        assert_eq!(line.is_ok(), accepted, "{name}");
        let text = show::file(&bytes).text;
        let is_line = |own: &&str| own.trim_start_matches(['#', ' ']).starts_with("policy:");
        let found = text.lines().find(is_line);
        assert_eq!(found.is_some(), accepted, "{name}:\n{text}");
        shown[usize::from(accepted)] += 1;
        if let Ok(line) = line {
            assert_eq!(line, format!("policy: {}", spelled(&mut case.policy.iter().copied())));
            assert_eq!(monitor::read_text(&line, case.counts()), Ok(case.policy), "{name}");
        }
    }
    assert!(shown.iter().all(|count| *count > 300), "{shown:?}");
}

#[test]
fn the_longest_line_comes_back() {
    let set = (0..16).map(|user| user.to_string()).collect::<Vec<String>>().join(",");
    let line =
        format!("policy: {}{{{set}}}{}", format!("({{{set}}} apart ").repeat(15), ")".repeat(15));
    assert_eq!(line.len(), 767);
    let (printed, _) = answer(Verb::Normal, line.as_bytes()).expect("it is accepted");
    let printed = String::from_utf8(printed).expect("text");
    assert_eq!(printed.lines().next(), Some(&line[..]));
}

#[test]
fn nothing_stands_beside_a_line() {
    let behind = "line 4: `all` stands behind the end of the policy";
    assert_eq!(message(&with_line("policy: all\nall")), behind);
    let twice = "line 4: `policy` stands here a second time";
    assert_eq!(message(&with_line("policy: all\npolicy: all")), twice);
    assert_eq!(message(&with_line("policy: all\npolicy everyone")), twice);
    assert_eq!(message(&with_line("policy everyone\npolicy: all")), twice);
    let colon = "line 3: a policy word is missing before `:`";
    assert_eq!(message(&with_line("policy : all")), colon);
}

#[test]
fn a_policy_alone_has_the_most_users_and_roles() {
    let case = policy_alone("policy: (r15 apart {0,15})").expect("a policy");
    assert_eq!((case.users, case.roles), (16, 16));
    assert_eq!(case.policy, [0x09000000, 0x0200000f, 0x03008001]);
    let told = |text: &str| policy_alone(text).expect_err(text).to_string();
    assert_eq!(told("users 3\npolicy: all"), "line 2: the part `roles` is missing");
    assert_eq!(told("policy everyone"), "line 1: the part `users` is missing");
    for verb in [Verb::Write, Verb::Run] {
        let answer = answer(verb, b"policy: all");
        assert_eq!(answer, Err("line 1: the part `users` is missing".to_string()));
    }
}

#[test]
fn damaged_lines_are_told_or_accepted() {
    let line = "policy: ((r0 apart not {0,3}) or plus all)";
    let pieces = " 0123456789,(){}abdehilnoprtuw#:\t\u{e4}\u{a0}\u{1b}".chars().map(String::from);
    let pieces: Vec<String> = pieces.chain(["not ".into(), "plus ".into()]).collect();
    let mut refused = [0; 22];
    for at in 0..=line.len() {
        let (before, behind) = line.split_at(at);
        let rest = behind.get(1..).unwrap_or_default();
        let mut texts = vec![before.to_string(), format!("{before}{rest}")];
        for piece in &pieces {
            texts.extend([format!("{before}{piece}{behind}"), format!("{before}{piece}{rest}")]);
        }
        for text in texts.iter().map(|line| with_line(line)) {
            match text::write(&text) {
                Ok(bytes) => assert!(monitor::open(&file::read(&bytes).expect(&text)).is_ok()),
                Err(fault) => {
                    let printable = |c: char| c == '\n' || !c.is_control();
                    assert!(fault.message.chars().all(printable), "{text}");
                    if let Some(rest) = fault.message.strip_prefix("refused ") {
                        let number = rest.split([' ', ':']).next().unwrap_or_default();
                        refused[number.parse::<usize>().expect(rest)] += 1;
                    }
                }
            }
        }
    }
    let found: Vec<usize> = (0..22).filter(|number| refused[*number] > 0).collect();
    assert_eq!(found, [2, 4, 20, 21], "{refused:?}");
}
