//! The command line.

use std::ffi::OsString;
use std::path::PathBuf;

use crate::quote::quoted;
use crate::tokens::policy_text;
use crate::words::Language;

/// What the program can do.
pub const USAGE: &str = "\
usage: case VERB [INPUT] [-o OUTPUT]

  write        makes a case file from a text
  show         shows a case file as text
  run          runs a text or a case file: for each event its place, its
               number, the status, the event, who may act then (with a
               workflow, for each action), and what the number says
  words c      prints a policy's text, its words as an array for C, and the
               bytes of permissions and workflow if there are any
  words rust   prints them as arrays for Rust
  normal       prints the text of a policy's normal form, and its words
  alternatives prints a policy with the choices split out of its joint duties,
               in the same way

INPUT is a file, else standard input; OUTPUT a file, else standard output.
words, normal and alternatives take a text, which needs users, roles and policy
only, or a case file. They also take a policy's own text alone, from a file, or
on the command line in the place of INPUT, and then declare 16 users and 16
roles:

  case normal 'policy: ((r2 apart r0) apart r1)'

In a text such a policy is one line. The blanks around it and a comment behind
it are the line's; all else is read as the library reads it. show prints a
policy in this form if it is accepted. One that is refused is told with a mark
below the word at fault. docs/POLICIES.md says how a text is written.

Exit status: 0 if all is well; 1 if the input is faulty or refused, or cannot
be read, or the output cannot be written; 2 for a wrong command line.
";

/// What is to be done.
#[derive(Clone, Copy, Debug, PartialEq, Eq)]
pub enum Verb {
    /// Text to case file.
    Write,
    /// Case file to text.
    Show,
    /// A run through the library.
    Run,
    /// A policy's words.
    Words(Language),
    /// A policy's normal form.
    Normal,
    /// A policy as whole alternatives.
    Alternatives,
    /// The usage.
    Help,
}

/// A command line.
#[derive(Clone, Debug, PartialEq, Eq)]
pub struct Command {
    /// What is to be done.
    pub verb: Verb,
    /// The file to read, or a policy; else standard input.
    pub input: Option<PathBuf>,
    /// The file to write; else standard output.
    pub output: Option<PathBuf>,
}

impl Command {
    /// The policy that stands in the place of the file to read, if one does: it begins with `policy:`.
    pub fn policy(&self) -> Option<&str> {
        self.input.as_deref()?.to_str().filter(|text| policy_text(text).is_some())
    }
}

/// Reads a command line.
///
/// # Errors
/// What is wrong with it.
pub fn parse(arguments: &[OsString]) -> Result<Command, String> {
    let (verb, rest) = verb(arguments)?;
    let mut command = Command { verb, input: None, output: None };
    let mut rest = rest.iter();
    while let Some(argument) = rest.next() {
        let text = argument.to_string_lossy();
        let (place, file) = if text == "-o" {
            (&mut command.output, rest.next().ok_or("a file is missing behind `-o`")?)
        } else if text.starts_with('-') {
            return Err(format!("{} is no option", quoted(&text)));
        } else {
            (&mut command.input, argument)
        };
        if place.replace(file.into()).is_some() {
            return Err(format!("{} is one file too many", quoted(&file.to_string_lossy())));
        }
    }
    Ok(command)
}

/// The verb, and what follows it.
fn verb(arguments: &[OsString]) -> Result<(Verb, &[OsString]), String> {
    let words: Vec<_> = arguments.iter().take(2).map(|word| word.to_string_lossy()).collect();
    let words: Vec<&str> = words.iter().map(|word| word.as_ref()).collect();
    let (verb, length) = match words[..] {
        ["write", ..] => (Verb::Write, 1),
        ["show", ..] => (Verb::Show, 1),
        ["run", ..] => (Verb::Run, 1),
        ["words", "c"] => (Verb::Words(Language::C), 2),
        ["words", "rust"] => (Verb::Words(Language::Rust), 2),
        ["words", ..] => return Err("`words` is followed by `c` or `rust`".to_string()),
        ["normal", ..] => (Verb::Normal, 1),
        ["alternatives", ..] => (Verb::Alternatives, 1),
        ["--help" | "-h" | "help"] => (Verb::Help, 1),
        [] => return Err("a verb is missing".to_string()),
        [other, ..] => return Err(format!("{} is no verb", quoted(other))),
    };
    Ok((verb, &arguments[length..]))
}
