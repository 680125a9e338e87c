//! A policy's words as an array in a program, and the bytes of permissions and workflow.

use crate::monitor;
use crate::names::{members, sides, term_word, Counts};
use crate::plan::{row_bytes, Workflow};
use crate::show::transition;

/// The language of the program.
#[derive(Clone, Copy, Debug, PartialEq, Eq)]
pub enum Language {
    /// C.
    C,
    /// Rust.
    Rust,
}

/// The text of an accepted policy and the array: a word a line, each with its name, which is indented by
/// the terms around it.
pub fn array(language: Language, words: &[u32], counts: Counts) -> String {
    let line = |(word, depth): (&u32, usize)| {
        let name = " ".repeat(2 * depth) + &term_word(*word, counts);
        language.line(&format!("{word:#010x}"), &name)
    };
    let lines: String = words.iter().zip(depths(words)).map(line).collect();
    let text = language.comment(&monitor::text_of(words, counts));
    text + "\n" + &language.array("policy", 32, words.len(), &lines)
}

/// The arrays of permissions, a role a line, and of a workflow: its states, then a transition a line.
pub fn secure_arrays(language: Language, rows: &[u64], workflow: &Workflow) -> String {
    let row = |(role, row): (usize, &u64)| {
        language.line(&listed(&row.to_le_bytes()), &format!("role {role}:{}", members(*row)))
    };
    let rows_lines: String = rows.iter().enumerate().map(row).collect();
    let bytes = workflow.bytes();
    let Workflow { states, final_states, transitions } = workflow;
    let counts = format!("{states} states, {} transitions", transitions.len());
    let head = format!("{counts}, final:{}", members(*final_states));
    let line = |own: &[u8; 3]| language.line(&listed(own), &transition(own));
    let mut lines = language.line(&listed(&bytes[..bytes.len() - 3 * transitions.len()]), &head);
    lines.extend(transitions.iter().map(line));
    language.array("permissions", 8, row_bytes(rows).len(), &rows_lines)
        + &language.array("workflow", 8, bytes.len(), &lines)
}

/// Bytes one behind the other.
fn listed(bytes: &[u8]) -> String {
    let bytes: Vec<String> = bytes.iter().map(|byte| format!("{byte:#04x}")).collect();
    bytes.join(", ")
}

impl Language {
    /// An array of so many numbers with so many bits, which are in these lines.
    fn array(self, name: &str, bits: u32, count: usize, lines: &str) -> String {
        let (first, last) = match self {
            Language::C => (format!("static const uint{bits}_t {name}[{count}] = {{"), "};"),
            Language::Rust => {
                (format!("const {}: [u{bits}; {count}] = [", name.to_uppercase()), "];")
            }
        };
        format!("{first}\n{lines}{last}\n")
    }

    /// A line of an array, with what its numbers are.
    fn line(self, numbers: &str, what: &str) -> String {
        format!("    {numbers}, {}\n", self.comment(what))
    }

    /// A comment.
    fn comment(self, what: &str) -> String {
        match self {
            Language::C => format!("/* {what} */"),
            Language::Rust => format!("// {what}"),
        }
    }
}

/// For each word how many terms are around it. What is left over behind a whole term has none.
pub fn depths(words: &[u32]) -> Vec<usize> {
    // the depths of the terms that are still to come, the next one last
    let mut due = vec![0];
    let mut depths = Vec::new();
    for word in words {
        let depth = due.pop().unwrap_or(0);
        due.extend(std::iter::repeat_n(depth + 1, sides(*word)));
        depths.push(depth);
    }
    depths
}
