//! A policy author's tool. It makes case files (01, "Case file and program") from readable text and
//! shows them as such text, runs them through the linked library, and prints a policy's words, its
//! normal form and its whole alternatives. `case --help` lists the verbs.
//!
//! A text has five parts, each begun by its name, and three more that it need not have; `#` begins a
//! comment, and blanks play no part at the end of a line.
//!
//! ```text
//! users 3
//! roles counter editor approver
//! actions
//!   1: count
//!   2: approve
//! policy
//!   together(role 0, either(role approver, not set 0 1))
//! grants
//!   0: 1
//!   1: counter 2
//!   2:
//! permissions
//!   counter: count
//!   editor:
//!   approver: approve
//! workflow
//!   states begun counted approved
//!   final approved
//!   begun: count -> counted
//!   counted: approve -> approved
//! events
//!   act 0 count
//!   grant 1 2
//!   revoke 1 2
//!   close
//! ```
//!
//! Users, roles and states are a number or their names, in order; `actions` names actions. Permissions
//! and workflow stand together or not at all. In their place `none` is an empty part, `raw` any bytes.
//!
//! A policy is a list of words in prefix order, in 01's names. Parentheses after a word hold its
//! sides and are checked; they may be left out. Or it is one line of the text that 02 gives it,
//! `policy: (r0 with (r2 or not {0,1}))`, which the library reads; an accepted policy is shown so.
//! `revoke` may also be called `withdraw`. What a text names must be declared, and nothing may be
//! missing or too many; `word 0x0a000000` is any policy or event word, so that refused policies and
//! damaged events can be written too. A text of the single part `bytes` is any file, malformed or
//! not. Where a policy is refused, it is shown with a mark below the word at fault.

#![forbid(unsafe_code)]

mod arguments;
mod declared;
mod file;
mod line;
mod mark;
mod monitor;
mod names;
mod plan;
mod policy;
mod quote;
mod run;
mod secure;
mod show;
mod streams;
#[cfg(test)]
mod tests;
mod text;
mod tokens;
mod words;

use std::ffi::OsString;
use std::io::Write;
use std::process::ExitCode;

use arguments::{Command, Verb, USAGE};
use file::Case;
use monitor::MOST_WORDS;
use text::Source;
use words::Language;

fn main() -> ExitCode {
    let arguments: Vec<OsString> = std::env::args_os().skip(1).collect();
    let command = match arguments::parse(&arguments) {
        Ok(command) => command,
        Err(message) => {
            complain(&format!("{message}\n\n{USAGE}"));
            return ExitCode::from(2);
        }
    };
    match obey(&command) {
        Ok(true) => ExitCode::SUCCESS,
        Ok(false) => ExitCode::FAILURE,
        Err(message) => {
            complain(&format!("{message}\n"));
            ExitCode::FAILURE
        }
    }
}

/// Writes a message. Where nobody can be told, the exit status remains.
fn complain(message: &str) {
    let _ = write!(std::io::stderr(), "case: {message}");
}

/// Does what is to be done. Whether all is well with what was read.
fn obey(command: &Command) -> Result<bool, String> {
    let input = match (command.verb, command.policy()) {
        (Verb::Help, _) => vec![],
        (_, Some(policy)) => policy.into(),
        _ => streams::input(command.input.as_deref())?,
    };
    let (printed, well) = answer(command.verb, &input)?;
    streams::output(command.output.as_deref(), &printed)?;
    Ok(well)
}

/// What is printed for an input, and whether all is well with it.
fn answer(verb: Verb, input: &[u8]) -> Result<(Vec<u8>, bool), String> {
    match verb {
        Verb::Help => Ok((USAGE.into(), true)),
        Verb::Write => Ok((written(input)?, true)),
        Verb::Show => {
            let shown = show::file(input);
            Ok((shown.text.into(), shown.malformed.is_none()))
        }
        Verb::Run if text::is_case_file(input) => Ok(ran(input, None)),
        Verb::Run => Ok(ran(&written(input)?, source(input)?.as_ref())),
        Verb::Words(language) => Ok((arrays(language, input)?.into(), true)),
        Verb::Normal => {
            let (case, normal) = accepted_policy(input)?;
            Ok((show::accepted(&normal, case.counts()).into(), true))
        }
        Verb::Alternatives => {
            let (case, _) = accepted_policy(input)?;
            Ok((show::accepted(&alternatives(&case)?, case.counts()).into(), true))
        }
    }
}

/// The case file that a text says.
fn written(input: &[u8]) -> Result<Vec<u8>, String> {
    text::decode(input).and_then(text::write).map_err(|fault| fault.to_string())
}

/// What a text adds to its case file.
fn source(input: &[u8]) -> Result<Option<Source<'_>>, String> {
    text::decode(input).and_then(text::source).map_err(|fault| fault.to_string())
}

/// What is printed of a case file's run, and whether it was accepted. The source is its text, if it was
/// one.
fn ran(bytes: &[u8], source: Option<&Source>) -> (Vec<u8>, bool) {
    let report = run::report(bytes, source);
    (report.text.into(), report.accepted)
}

/// The policy of an input, and where it was a text, the line of each of its words.
fn policy_of(input: &[u8]) -> Result<(Case, Vec<usize>), String> {
    if text::is_case_file(input) {
        let case = file::read(input).map_err(|reason| format!("malformed (14): {reason}"))?;
        return Ok((case, vec![]));
    }
    let case =
        text::decode(input).and_then(text::policy_alone).map_err(|fault| fault.to_string())?;
    Ok((case, source(input)?.map_or(vec![], |source| source.lines)))
}

/// The arrays of an input's policy and, if it has them, of its permissions and workflow.
fn arrays(language: Language, input: &[u8]) -> Result<String, String> {
    let (mut case, _) = accepted_policy(input)?;
    if !text::is_case_file(input) {
        let own = text::decode(input).and_then(text::secure_alone);
        case.secure = case.secure.or(own.map_err(|fault| fault.to_string())?);
    }
    let policy = words::array(language, &case.policy, case.counts());
    let given = plan::read(&case).map_err(|reason| format!("refused 19: {reason}"))?;
    let more = given.map(|(rows, workflow)| words::secure_arrays(language, &rows, &workflow));
    Ok(policy + &more.unwrap_or_default())
}

/// The policy of an input, which the library accepts, and its normal form.
fn accepted_policy(input: &[u8]) -> Result<(Case, Vec<u32>), String> {
    let (case, lines) = policy_of(input)?;
    match monitor::normal_form(&case) {
        Ok(normal) => Ok((case, normal)),
        Err(refused) => {
            let (line, mark) = (mark::line(&refused, &lines), mark::fault(&case, &refused));
            let told = format!("{line}{refused}: {}\n{mark}", refused.sentence);
            Err(told.trim_end().to_string())
        }
    }
}

/// A case's policy, which is accepted, as whole alternatives. It has no word at fault to mark where only
/// these are too long.
fn alternatives(case: &Case) -> Result<Vec<u32>, String> {
    monitor::alternatives(case).map_err(|refused| {
        format!("{refused}: as whole alternatives the policy has more than {MOST_WORDS} words")
    })
}
