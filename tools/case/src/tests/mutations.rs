//! Damaged texts: each is refused with its line, or makes a case that the library refuses with 4
//! alone, or with 19 where a part is `none` or `raw`; none of its events is answered 7.

use super::plans::NAMED;
use super::LISTING_TEXT;
use crate::{file, monitor, text};

/// What is put into a text.
const PIECES: [&str; 34] = [
    "0",
    "1",
    "2",
    "3",
    "15",
    "16",
    "17",
    "255",
    "256",
    "99999",
    "0x3",
    "-1",
    "x",
    "(",
    ")",
    ",",
    ":",
    "role",
    "set",
    "everyone",
    "not",
    "plus",
    "apart",
    "policy",
    "grants",
    "act",
    "close",
    "\u{1b}[2J",
    "->",
    "count",
    "Bert",
    "none",
    "raw",
    "workflow",
];

/// The lines of a text, taken apart.
fn lines(text: &str) -> Vec<Vec<String>> {
    let apart = |sign: char| if "(),:".contains(sign) { format!(" {sign} ") } else { sign.into() };
    let spaced: String = text.chars().map(apart).collect();
    spaced.lines().map(|line| line.split_whitespace().map(String::from).collect()).collect()
}

/// The lines put together.
fn joined(lines: &[Vec<String>]) -> String {
    lines.iter().map(|line| line.join(" ") + "\n").collect()
}

/// Every text that comes from a text by one mistake: something left out, put in or exchanged.
fn mistakes(text: &str) -> Vec<String> {
    let lines = lines(text);
    let mut all = Vec::new();
    for row in 0..lines.len() {
        let mut with = |line: Vec<String>| {
            let mut lines = lines.clone();
            lines[row] = line;
            all.push(joined(&lines));
        };
        with(vec![]);
        with([&lines[row][..], &["\n".to_string()], &lines[row][..]].concat());
        for column in 0..=lines[row].len() {
            let (before, behind) = lines[row].split_at(column);
            let rest = behind.get(1..).unwrap_or_default();
            with([before, rest].concat());
            for piece in PIECES {
                let piece = [piece.to_string()];
                with([before, &piece, behind].concat());
                with([before, &piece, rest].concat());
            }
        }
    }
    all
}

/// What holds of every text that names each word.
fn told_or_well_formed(text: &str) {
    let bytes = match text::write(text) {
        Ok(bytes) => bytes,
        Err(fault) => {
            assert!((1..=text.lines().count()).contains(&fault.line), "{fault}:\n{text}");
            let message = fault.to_string();
            assert!(message.len() < 120 && !message.chars().any(char::is_control), "{message:?}");
            return;
        }
    };
    let case = file::read(&bytes).expect(text);
    match monitor::open(&case) {
        Err(refused) => {
            let escaped = text.contains("none") || text.contains("raw");
            assert!(refused.number == 4 || escaped && refused.number == 19, "{text}");
        }
        Ok(mut opened) => {
            for word in &case.events {
                let number = opened.event(*word).map_or_else(|refused| refused.number, |()| 0);
                assert_ne!(number, 7, "{word:#010x} in\n{text}");
            }
        }
    }
}

#[test]
fn every_mistake_is_told_or_harmless() {
    for text in [LISTING_TEXT, NAMED] {
        let texts = mistakes(text);
        assert!(texts.len() > 3000);
        texts.iter().for_each(|text| told_or_well_formed(text));
    }
}

#[test]
fn cut_texts_are_told_or_harmless() {
    for text in [LISTING_TEXT, NAMED] {
        for end in 0..text.len() {
            told_or_well_formed(&(text[..end].to_string() + "\n"));
        }
    }
}
