//! The permissions and the workflow of a text.

use crate::declared::{counted, Declared, Names};
use crate::file::Secure;
use crate::monitor::{MOST_PERMITTED, MOST_STATES, MOST_TRANSITIONS};
use crate::plan::{row_bytes, Workflow};
use crate::text::{bytes, rows};
use crate::tokens::{fault, Fault, Part, Parts, Token};

/// The most bytes that `raw` is followed by: more than a part in form has, and few enough for a file.
const MOST_RAW: usize = 1024;

/// Permissions and workflow of a text, if it has them.
///
/// # Errors
/// The first fault of these parts, or that one is there alone.
pub fn read(parts: &Parts, declared: &Declared) -> Result<Option<Secure>, Fault> {
    match (parts.get("permissions"), parts.get("workflow")) {
        (None, None) => Ok(None),
        (Some(permissions), Some(workflow)) => Ok(Some(Secure {
            permissions: self::permissions(permissions, declared)?,
            workflow: self::workflow(workflow, declared)?,
        })),
        (Some(part), None) => fault(part.line, "`permissions` without `workflow`"),
        (None, Some(part)) => fault(part.line, "`workflow` without `permissions`"),
    }
}

/// The bytes of a part that is `none`, or `raw` and any bytes.
fn escaped(part: &Part) -> Result<Option<Vec<u8>>, Fault> {
    match &part.tokens[..] {
        [Token { text: "none", .. }] => Ok(Some(vec![])),
        [Token { text: "none", line }, ..] => fault(*line, "`none` stands alone"),
        [Token { text: "raw", line }, rest @ ..] if rest.len() > MOST_RAW => {
            fault(*line, format!("`raw` is followed by more than {MOST_RAW} bytes"))
        }
        [Token { text: "raw", .. }, rest @ ..] => bytes(rest).map(Some),
        _ => Ok(None),
    }
}

/// The permissions, a line a role.
fn permissions(part: &Part, declared: &Declared) -> Result<Vec<u8>, Fault> {
    if let Some(bytes) = escaped(part)? {
        return Ok(bytes);
    }
    let action = |token: Token| declared.actions.any_number(token, MOST_PERMITTED);
    let form = "a line of the permissions is `ROLE: ACTION ACTION ..`";
    Ok(row_bytes(&rows(part, form, &declared.roles, "action", action)?))
}

/// The workflow: its states, the final ones, and a transition a line.
fn workflow(part: &Part, declared: &Declared) -> Result<Vec<u8>, Fault> {
    if let Some(bytes) = escaped(part)? {
        return Ok(bytes);
    }
    let mut lines = part.lines();
    let states = states(part, lines.next().unwrap_or_default())?;
    let final_states = final_states(part, lines.next().unwrap_or_default(), &states)?;
    let mut read = Vec::new();
    for tokens in lines {
        let own = transition(tokens, &states, declared)?;
        add(&mut read, tokens[0].line, own)?;
    }
    let transitions = read.into_iter().map(|(_, own)| own).collect();
    Ok(Workflow { states: states.count() as u8, final_states, transitions }.bytes())
}

/// Adds a transition to those that were read, each with its line.
fn add(read: &mut Vec<(usize, [u8; 3])>, line: usize, own: [u8; 3]) -> Result<(), Fault> {
    if let Some((first, _)) = read.iter().find(|(_, other)| other[..2] == own[..2]) {
        return fault(line, format!("the same state and action as in line {first}"));
    }
    if read.len() == MOST_TRANSITIONS {
        return fault(line, format!("one transition more than {MOST_TRANSITIONS}"));
    }
    read.push((line, own));
    Ok(())
}

/// The line of the states.
fn states<'a>(part: &Part<'a>, tokens: &[Token<'a>]) -> Result<Names<'a>, Fault> {
    match tokens {
        [Token { text: "states", line }, rest @ ..] => {
            counted(["state", "states"], *line, rest, MOST_STATES)
        }
        _ => {
            let line = tokens.first().map_or(part.line, |token| token.line);
            fault(line, "a workflow begins with `states` and their number, or their names")
        }
    }
}

/// The line of the final states, bit s for state s.
fn final_states(part: &Part, tokens: &[Token], states: &Names) -> Result<u16, Fault> {
    let [Token { text: "final", .. }, rest @ ..] = tokens else {
        let line = tokens.first().map_or(part.last_line(), |token| token.line);
        return fault(line, "behind the states there is a line `final` with the final ones");
    };
    let mut mask = 0;
    for token in rest {
        let state = states.number(*token)?;
        if mask >> state & 1 == 1 {
            return fault(token.line, format!("state {state} stands here a second time"));
        }
        mask |= 1 << state;
    }
    Ok(mask)
}

/// A transition from its line.
fn transition(tokens: &[Token], states: &Names, declared: &Declared) -> Result<[u8; 3], Fault> {
    let [state, Token { text: ":", .. }, action, Token { text: "->", .. }, next] = tokens else {
        return fault(tokens[0].line, "a transition is `STATE: ACTION -> NEXT`");
    };
    let action = declared.actions.any_number(*action, MOST_PERMITTED);
    Ok([states.number(*state)?, action?, states.number(*next)?].map(|number| number as u8))
}
