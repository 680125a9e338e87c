//! What a text declares: how many users, roles and states there are, and the names of these and of
//! actions. Whatever has a name may be named by its number too.

use crate::monitor::{MOST_ROLES, MOST_USERS};
use crate::names::{is_reserved, Counts};
use crate::quote::quoted;
use crate::tokens::{fault, number, Fault, Part, Parts, Token};

/// The most that an event's word has room for as the number of an action.
pub const MOST_ACTION: u32 = 255;

/// Things of one kind, numbered from 0, some of them with a name.
#[derive(Debug)]
pub struct Names<'a> {
    /// What one of them is called.
    what: &'static str,
    /// How many there are.
    count: u32,
    /// The names, and whose they are.
    named: Vec<(u32, &'a str)>,
}

impl<'a> Names<'a> {
    /// So many without a name.
    pub fn numbered(what: &'static str, count: u32) -> Names<'a> {
        Names { what, count, named: vec![] }
    }

    /// How many there are.
    pub fn count(&self) -> u32 {
        self.count
    }

    /// The number of the one with this name.
    pub fn find(&self, name: &str) -> Option<u32> {
        self.named.iter().find(|(_, own)| *own == name).map(|(number, _)| *number)
    }

    /// The name of the one with this number, or else the number.
    pub fn name(&self, number: u32) -> String {
        let own = self.named.iter().find(|(own, _)| *own == number);
        own.map_or_else(|| number.to_string(), |(_, name)| name.to_string())
    }

    /// The number that a token says, by itself or by name, if it is declared.
    ///
    /// # Errors
    /// If it is neither, or not declared.
    pub fn number(&self, token: Token) -> Result<u32, Fault> {
        let (what, count) = (self.what, self.count);
        let number = self.any_number(token, 0xffff)?;
        if number < count {
            return Ok(number);
        }
        let last = count - 1;
        fault(token.line, format!("{what} {number} is not declared: the last is {what} {last}"))
    }

    /// The number that a token says, by itself or by name, up to a most.
    ///
    /// # Errors
    /// If it is neither, or above.
    pub fn any_number(&self, token: Token, most: u32) -> Result<u32, Fault> {
        let (what, said) = (self.what, quoted(token.text));
        match self.find(token.text) {
            Some(number) if number <= most => Ok(number),
            Some(number) => fault(token.line, format!("{said} is {what} {number}, above {most}")),
            None if !self.named.is_empty() && is_name(token.text) => {
                fault(token.line, format!("{said} is the name of no {what}"))
            }
            None => number(token, most),
        }
    }

    /// The line of the one with this number, as a fault speaks of it.
    pub fn line_of(&self, number: usize) -> String {
        format!("the line of {} {number}", self.what)
    }

    /// Gives a name.
    fn give(&mut self, number: u32, token: Token<'a>) -> Result<(), Fault> {
        let said = quoted(token.text);
        if !is_name(token.text) {
            let message = format!("{said} is no name: a letter, then letters, digits, `-` and `_`");
            return fault(token.line, message);
        }
        if is_reserved(token.text) {
            return fault(token.line, format!("{said} is a word of texts, and no name"));
        }
        if self.find(token.text).is_some() {
            return fault(token.line, format!("{said} stands here a second time"));
        }
        self.named.push((number, token.text));
        Ok(())
    }
}

/// Whether a word may be a name.
fn is_name(word: &str) -> bool {
    let fits = |c: char| c.is_alphanumeric() || c == '-' || c == '_';
    word.starts_with(char::is_alphabetic) && word.chars().all(fits)
}

/// How many there are of a kind, 1 to a most: one number, or a name for each. `several` is the word that
/// stands before them, in this line.
///
/// # Errors
/// If it is neither.
pub fn counted<'a>(
    [what, several]: [&'static str; 2],
    line: usize,
    tokens: &[Token<'a>],
    most: usize,
) -> Result<Names<'a>, Fault> {
    match tokens {
        [first, ..] if first.text.starts_with(char::is_alphabetic) => listed(what, tokens, most),
        [token] => match number(*token, most as u32) {
            Ok(count @ 1..) => Ok(Names::numbered(what, count)),
            _ => {
                let said = quoted(token.text);
                fault(token.line, format!("{said} is no number of {several} from 1 to {most}"))
            }
        },
        _ => fault(line, format!("`{several}` is followed by one number, or by names")),
    }
}

/// A name for each.
fn listed<'a>(what: &'static str, tokens: &[Token<'a>], most: usize) -> Result<Names<'a>, Fault> {
    if let Some(token) = tokens.get(most) {
        let said = quoted(token.text);
        return fault(token.line, format!("{said} is one {what} more than {most}"));
    }
    let mut names = Names::numbered(what, tokens.len() as u32);
    for (number, token) in (0..).zip(tokens) {
        names.give(number, *token)?;
    }
    Ok(names)
}

/// What a text declares beside its workflow.
#[derive(Debug)]
pub struct Declared<'a> {
    /// The users.
    pub users: Names<'a>,
    /// The roles.
    pub roles: Names<'a>,
    /// The actions.
    pub actions: Names<'a>,
}

impl<'a> Declared<'a> {
    /// What a text declares.
    ///
    /// # Errors
    /// The first fault of these parts.
    pub fn of(parts: &Parts<'a>) -> Result<Declared<'a>, Fault> {
        let (users, roles) = (parts.need("users")?, parts.need("roles")?);
        Ok(Declared {
            users: counted(["user", "users"], users.line, &users.tokens, MOST_USERS)?,
            roles: counted(["role", "roles"], roles.line, &roles.tokens, MOST_ROLES)?,
            actions: actions(parts.get("actions"))?,
        })
    }

    /// So many users and roles, and nothing with a name.
    pub fn numbered(counts: Counts) -> Declared<'a> {
        Declared {
            users: Names::numbered("user", counts.users.into()),
            roles: Names::numbered("role", counts.roles.into()),
            actions: Names::numbered("action", MOST_ACTION + 1),
        }
    }

    /// How many users and roles there are.
    pub fn counts(&self) -> Counts {
        Counts { users: self.users.count as u8, roles: self.roles.count as u8 }
    }
}

/// The names of actions, a line each.
fn actions<'a>(part: Option<&Part<'a>>) -> Result<Names<'a>, Fault> {
    let mut names = Names::numbered("action", MOST_ACTION + 1);
    for tokens in part.iter().flat_map(|part| part.lines()) {
        let [own, Token { text: ":", .. }, name] = tokens else {
            return fault(tokens[0].line, "a line of the actions is `NUMBER: NAME`");
        };
        let number = number(*own, MOST_ACTION)?;
        if names.named.iter().any(|(other, _)| *other == number) {
            return fault(own.line, format!("action {number} stands here a second time"));
        }
        names.give(number, *name)?;
    }
    Ok(names)
}
