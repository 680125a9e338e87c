//! Where a refused policy is marked.

use reference::generate::case_files;

use super::with_policy;
use crate::arguments::Verb;
use crate::file::{self, Case};
use crate::names::term_word;
use crate::{answer, mark, monitor, run, show};

const EVERYONE: u32 = 0x01000000;
const NOT: u32 = 0x04000000;
const PLUS: u32 = 0x05000000;
const APART: u32 = 0x09000000;

/// A case of two users and two roles with these policy words.
fn case(words: &[u32]) -> Case {
    Case { users: 2, roles: 2, policy: words.to_vec(), grants: vec![1, 2], ..Case::default() }
}

/// What is printed of a run below its first line, of which the judge's part is given too.
fn marked(words: &[u32]) -> (String, String) {
    let report = run::report(&file::write(&case(words)), None);
    assert!(!report.accepted, "{words:08x?}");
    let (first, rest) = report.text.split_once('\n').expect("a line");
    (first.split("  ").next().unwrap_or_default().to_string(), rest.to_string())
}

/// Whether words are refused so, and shown with this mark.
fn is(words: &[u32], refused: &str, lines: &[&str]) {
    let expected: String = lines.iter().map(|line| format!("  {line}\n")).collect();
    assert_eq!(marked(words), (refused.to_string(), expected));
}

#[test]
fn too_few_and_too_many_words() {
    is(&[], "refused 1 at 0", &["^"]);
    let cut = ["apart", "^^^^^", ".. and 31 words more"];
    is(&[&[APART; 15][..], &[EVERYONE; 17]].concat(), "refused 1 at 0", &cut);
    is(
        &[0x0a000000; 1000],
        "refused 1 at 0",
        &["word 0x0a000000", "^^^^^^^^^^^^^^^", ".. and 999 words more"],
    );
}

#[test]
fn bad_words() {
    let role = 0x02000002;
    is(&[role], "refused 2 at 0", &["word 0x02000002", "^^^^^^^^^^^^^^^"]);
    is(
        &[APART, 0x03000000, EVERYONE],
        "refused 2 at 1",
        &["apart(word 0x03000000, everyone)", "      ^^^^^^^^^^^^^^^"],
    );
    is(
        &[APART, 0x03000003, role],
        "refused 2 at 2",
        &["apart(set 0 1, word 0x02000002)", "               ^^^^^^^^^^^^^^^"],
    );
    is(
        &[APART, EVERYONE, EVERYONE, 0x0a000000, role],
        "refused 2 at 3",
        &[
            "apart",
            "  everyone",
            "  everyone",
            "word 0x0a000000",
            "^^^^^^^^^^^^^^^",
            "word 0x02000002",
        ],
    );
}

#[test]
fn words_left_over() {
    let set = 0x03000003;
    is(&[EVERYONE, set], "refused 3 at 1", &["everyone", "set 0 1", "^^^^^^^"]);
    is(
        &[APART, EVERYONE, NOT, EVERYONE, PLUS, EVERYONE],
        "refused 3 at 4",
        &["apart", "  everyone", "  not", "    everyone", "plus", "^^^^", "  everyone"],
    );
}

#[test]
fn words_that_run_out() {
    is(&[NOT], "refused 3 at 1", &["not", "   ^"]);
    is(&[APART, EVERYONE], "refused 3 at 2", &["apart", "  everyone", "          ^"]);
    let (refused, lines) = marked(&[NOT; 31]);
    assert_eq!(refused, "refused 3 at 31");
    assert_eq!(lines.lines().count(), 32);
    assert!(lines.ends_with(&format!("{}not\n{}^\n", " ".repeat(62), " ".repeat(65))), "{lines}");
}

#[test]
fn not_and_plus_over_no_unit_term() {
    is(&[PLUS, PLUS, EVERYONE], "refused 4 at 0", &["plus plus everyone", "^^^^"]);
    is(
        &[APART, NOT, EVERYONE, NOT, APART, EVERYONE, EVERYONE],
        "refused 4 at 3",
        &["apart(not everyone, not apart(everyone, everyone))", "                    ^^^"],
    );
    let chain = [[APART, EVERYONE].repeat(14), vec![NOT, PLUS, EVERYONE]].concat();
    let (refused, lines) = marked(&chain);
    assert_eq!(refused, "refused 4 at 28");
    assert!(lines.contains("not plus everyone))))))))))))))\n"), "{lines}");
}

#[test]
fn a_text_has_the_line_of_the_word() {
    let text = with_policy("apart(role 0,\n both(\nrole 1,\n\n word 0x02000003))");
    let (printed, well) = answer(Verb::Run, text.as_bytes()).expect("it is written");
    let printed = String::from_utf8(printed).expect("text");
    assert!(
        printed.starts_with("refused 2 at 4  line 7: this word is not in the layout, "),
        "{printed}"
    );
    assert!(!well);
    let told = answer(Verb::Normal, text.as_bytes()).expect_err("it is refused");
    assert!(told.starts_with("line 7: refused 2 at 4: this word is not in the layout, "), "{told}");
    let (_, lines) = printed.split_once('\n').expect("a line");
    assert!(told.ends_with(lines.trim_end()), "{told}");
}

#[test]
fn bytes_have_no_line() {
    let text = "bytes 0c 00 04 00 10 00 04 00 14 00 00 00 00 00 00 04 01 01 01 00";
    let (printed, _) = answer(Verb::Run, text.as_bytes()).expect("it is written");
    assert!(printed.starts_with(b"refused 3 at 1  the words are not"));
    let told = answer(Verb::Normal, text.as_bytes()).expect_err("it is refused");
    assert!(told.starts_with("refused 3 at 1: the words are not"), "{told}");
}

/// What stands over the mark, and how many names stand before it.
fn found(text: &str) -> (String, usize) {
    let lines: Vec<&str> = text.lines().collect();
    let is_mark = |line: &&str| line.trim_start().starts_with('^');
    let at = lines.iter().position(is_mark).expect("a mark");
    let (above, mark) = (lines[at - 1], lines[at]);
    let column = mark.find('^').expect("a mark");
    let over = above.get(column..mark.len()).unwrap_or_default();
    let before = lines[..at - 1].join(" ") + " " + &above[..column];
    let is_name = |piece: &&str| piece.starts_with(|c: char| c.is_ascii_alphabetic());
    (over.to_string(), before.split([' ', '(', ',']).filter(is_name).count())
}

#[test]
fn every_generated_fault_is_marked() {
    let mut marks = [0; 4];
    for (name, bytes) in case_files(13, 1500) {
        let Ok(case) = file::read(&bytes) else {
            continue;
        };
        let Err(refused) = monitor::open(&case) else {
            continue;
        };
        let text = mark::fault(&case, &refused);
        let Some(place) = refused.place else {
            assert_eq!(text, "", "{name}");
            continue;
        };
        marks[usize::from(refused.number) - 1] += 1;
        if refused.number > 1 {
            let shown = text.lines().filter(|line| !line.ends_with('^'));
            let shown: String = shown.map(|line| format!("{line}\n")).collect();
            assert_eq!(shown, show::policy(&case.policy, case.counts()), "{name}");
        }
        if let Some(word) = case.policy.get(place) {
            assert_eq!(found(&text), (term_word(*word, case.counts()), place), "{name}:\n{text}");
        } else if place > 0 {
            assert_eq!(found(&text), (String::new(), place), "{name}:\n{text}");
        }
    }
    assert!(marks.iter().all(|count| *count > 5), "{marks:?}");
}
