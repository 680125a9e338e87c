//! The policy of a text in one line, `policy: (r0 apart r1)`: document 02's text of a policy, which the
//! library reads.

use std::ops::Range;

use crate::mark::mark;
use crate::monitor::{self, Refused, OPENING};
use crate::names::Counts;
use crate::policy::Policy;
use crate::tokens::{fault, Fault};

/// The columns within which a text is shown whole.
const WIDTH: usize = 72;
/// How many columns before the mark are shown of a longer one.
const BEFORE: usize = 24;

/// The policy that a text in this line says.
///
/// # Errors
/// The library's refusal, with the text and a mark below the word at fault.
pub fn read(text: &str, line: usize, counts: Counts) -> Result<Policy, Fault> {
    match monitor::read_text(text, counts) {
        Ok(words) => Ok(Policy { lines: vec![line; words.len()], words }),
        Err(refused) => {
            let told = format!("{refused}: {}\n{}", refused.sentence, marked(text, &refused));
            fault(line, told.trim_end())
        }
    }
}

/// A text with a mark below the word at fault; nothing if the fault is at no word.
fn marked(text: &str, refused: &Refused) -> String {
    let Some(span) = refused.place.and_then(|place| spans(text).into_iter().nth(place)) else {
        return String::new();
    };
    // a term is of ASCII alone, so any column is a place to cut
    let first = span.start.saturating_sub(BEFORE).min(text.len().saturating_sub(WIDTH));
    let last = text.len().min(first + WIDTH);
    let before = if first > 0 { ".." } else { "  " };
    let behind = if last < text.len() { ".." } else { "" };
    let mark = mark(2 + span.start - first, span.len());
    format!("{before}{}{behind}\n{mark}", &text[first..last])
}

/// Where the words of a text's term stand, in the order of the words: an operator comes before its
/// sides, though it stands between them.
fn spans(text: &str) -> Vec<Range<usize>> {
    let mut spans = Vec::new();
    // the operators that are still to come, the next one last
    let mut due = Vec::new();
    let mut at = OPENING.len();
    while at < text.len() {
        let span = at..at + length(&text[at..]);
        at = span.end;
        match &text[span.clone()] {
            " " | ")" => {}
            "(" => {
                due.push(spans.len());
                spans.push(span);
            }
            "or" | "both" | "with" | "apart" => {
                if let Some(place) = due.pop() {
                    spans[place] = span;
                }
            }
            _ => spans.push(span),
        }
    }
    spans
}

/// How many bytes a term's next word or sign has.
fn length(text: &str) -> usize {
    text.find(['(', ')', ' ']).map_or(text.len(), |end| end.max(1))
}
