//! Case to text.

use crate::declared::Declared;
use crate::file::{self, Case, Secure};
use crate::monitor::{self, MOST_WORDS};
use crate::names::{event_word, is_one_term, members, sides, term_word, Counts};
use crate::plan::{self, Workflow};
use crate::text;
use crate::words::depths;

/// The columns within which a term stays on one line.
const WIDTH: usize = 72;

/// A file as text.
pub struct Shown {
    /// The text, from which the same file is written again.
    pub text: String,
    /// What is malformed.
    pub malformed: Option<String>,
}

/// Shows a file. One that no other text says is shown as its bytes.
pub fn file(bytes: &[u8]) -> Shown {
    let case = match file::read(bytes) {
        Ok(case) => case,
        Err(reason) => {
            let text = format!("# malformed (14): {reason}\n{}", raw(bytes));
            return Shown { text, malformed: Some(reason) };
        }
    };
    let text = self::case(&case);
    let text = match text::write(&text) {
        Ok(_) => text,
        Err(fault) => {
            let lines: String = text.lines().map(|line| format!("#   {line}\n")).collect();
            format!("# only bytes say this, since {}\n{lines}{}", fault.message, raw(bytes))
        }
    };
    Shown { text, malformed: None }
}

/// The text of a case. A policy that is accepted has a text of its own, a line; one that is refused is
/// shown by its words.
fn case(case: &Case) -> String {
    let mut text = format!("users {}\nroles {}\n", case.users, case.roles);
    text += &match monitor::write_text(&case.policy, case.counts()) {
        Ok(line) => line + "\n",
        Err(_) => "policy\n".to_string() + &policy(&case.policy, case.counts()),
    };
    text += "grants\n";
    for (user, row) in case.grants.iter().enumerate() {
        text += &format!("  {user}:{}\n", members(*row));
    }
    if let Some(Secure { permissions, workflow }) = &case.secure {
        let rows = plan::rows(permissions, case.roles).map(|rows| self::rows(&rows));
        text += &part("permissions", permissions, rows.ok());
        text += &part("workflow", workflow, plan::workflow(workflow).as_ref().map(plan_lines).ok());
    }
    text += "events\n";
    for word in &case.events {
        text += &format!("  {}\n", event_word(*word, &Declared::numbered(case.counts())));
    }
    text
}

/// A part by these lines, if there are any: those that say it. Else it is empty or out of form.
fn part(name: &str, bytes: &[u8], lines: Option<String>) -> String {
    match lines {
        _ if bytes.is_empty() => format!("{name} none\n"),
        Some(lines) => format!("{name}\n{lines}"),
        None => format!("{name} raw\n{}", hexadecimal(bytes)),
    }
}

/// The lines of permissions.
fn rows(rows: &[u64]) -> String {
    let line = |(role, row): (usize, &u64)| format!("  {role}:{}\n", members(*row));
    rows.iter().enumerate().map(line).collect()
}

/// The lines of a workflow.
fn plan_lines(workflow: &Workflow) -> String {
    let Workflow { states, final_states, transitions } = workflow;
    let line = |own: &[u8; 3]| format!("  {}\n", transition(own));
    let transitions: String = transitions.iter().map(line).collect();
    format!("  states {states}\n  final{}\n{transitions}", members(*final_states))
}

/// A transition: its state, action and next state.
pub fn transition([state, action, next]: &[u8; 3]) -> String {
    format!("{state}: {action} -> {next}")
}

/// The text that says all bytes of a file.
fn raw(bytes: &[u8]) -> String {
    "bytes\n".to_string() + &hexadecimal(bytes)
}

/// Bytes in hexadecimal, sixteen a line.
fn hexadecimal(bytes: &[u8]) -> String {
    let line = |bytes: &[u8]| {
        let line: Vec<String> = bytes.iter().map(|byte| format!("{byte:02x}")).collect();
        format!("  {}\n", line.join(" "))
    };
    bytes.chunks(16).map(line).collect()
}

/// The lines of a policy: a term with its sides in parentheses, or, where the words are not one
/// term, a word a line, indented by the terms around it.
pub fn policy(words: &[u32], counts: Counts) -> String {
    if words.len() <= MOST_WORDS && is_one_term(words) {
        return format!("  {}\n", term(words, counts, 2));
    }
    let line = |(word, depth): (&u32, usize)| {
        let indent = "  ".repeat(1 + depth.min(MOST_WORDS));
        format!("{indent}{}\n", term_word(*word, counts))
    };
    words.iter().zip(depths(words)).map(line).collect()
}

/// An accepted policy as its own text, and below it, as a comment, by its words.
pub fn accepted(words: &[u32], counts: Counts) -> String {
    let term = term(words, counts, 0);
    let lines: String = term.lines().map(|line| format!("# {line}\n")).collect();
    monitor::text_of(words, counts) + "\n" + &lines
}

/// The words of a term; its lines behind the first begin in this column or further right.
pub fn term(words: &[u32], counts: Counts, column: usize) -> String {
    next_term(&mut words.iter(), counts, column)
}

/// The next term of the words.
fn next_term(words: &mut std::slice::Iter<u32>, counts: Counts, column: usize) -> String {
    let Some(&word) = words.next() else {
        return String::new();
    };
    let name = term_word(word, counts);
    match sides(word) {
        0 => name,
        1 => format!("{name} {}", next_term(words, counts, column)),
        _ => {
            let left = next_term(words, counts, column + 2);
            let right = next_term(words, counts, column + 2);
            joined(&name, &left, &right, column)
        }
    }
}

/// An operator with its two sides, on one line where they fit.
fn joined(name: &str, left: &str, right: &str, column: usize) -> String {
    let line = format!("{name}({left}, {right})");
    if !line.contains('\n') && column + line.len() <= WIDTH {
        return line;
    }
    let indent = " ".repeat(column + 2);
    format!("{name}(\n{indent}{left},\n{indent}{right})")
}
