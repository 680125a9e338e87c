//! The policy of a text: words in prefix order, whose sides may stand in parentheses; or one line of
//! document 02's text.

use crate::declared::Declared;
use crate::line;
use crate::monitor::MOST_WORDS;
use crate::names::{sides, term_kind, ROLE, SET};
use crate::quote::quoted;
use crate::tokens::{fault, number, Fault, Part, Token};

/// A word that waits for sides.
struct Open {
    name: String,
    line: usize,
    sides: usize,
    filled: usize,
    parentheses: bool,
}

/// A policy's words, and the line in which each stands.
pub struct Policy {
    /// The words.
    pub words: Vec<u32>,
    /// Their lines.
    pub lines: Vec<usize>,
}

/// A reader of the policy's tokens. What is open is a list of its own, so no nesting is too deep.
struct Reader<'a> {
    tokens: &'a [Token<'a>],
    line: usize,
    declared: &'a Declared<'a>,
    read: Policy,
    open: Vec<Open>,
}

/// The policy in a part of a text.
///
/// # Errors
/// The first fault: something undeclared, missing or too many, or no policy word; or the library's
/// refusal of a line.
pub fn read(part: &Part, declared: &Declared) -> Result<Policy, Fault> {
    let (policy, rest) = match part.policy_text {
        Some(text) => (line::read(text, part.line, declared.counts())?, &part.tokens[..]),
        None => term(part, declared)?,
    };
    match rest {
        [] => Ok(policy),
        [token, ..] => {
            let more = quoted(token.text);
            fault(token.line, format!("{more} stands behind the end of the policy"))
        }
    }
}

/// The first term in a part of a text, and what stands behind it.
fn term<'a>(part: &'a Part, declared: &'a Declared) -> Result<(Policy, &'a [Token<'a>]), Fault> {
    let (tokens, line) = (&part.tokens, part.line);
    let read = Policy { words: vec![], lines: vec![] };
    let mut reader = Reader { tokens, line, declared, read, open: vec![] };
    reader.word()?;
    while reader.wants_side()? {
        reader.word()?;
    }
    Ok((reader.read, reader.tokens))
}

impl<'a> Reader<'a> {
    /// Whether this sign is next.
    fn is_next(&self, sign: &str) -> bool {
        self.tokens.first().is_some_and(|token| token.text == sign)
    }

    /// The next token, taken.
    fn next(&mut self) -> Option<Token<'a>> {
        let (first, rest) = self.tokens.split_first()?;
        self.tokens = rest;
        self.line = first.line;
        Some(*first)
    }

    /// Something is missing before the next token.
    fn missing<T>(&self, what: &str) -> Result<T, Fault> {
        match self.tokens.first() {
            Some(next) => {
                fault(next.line, format!("{what} is missing before {}", quoted(next.text)))
            }
            None => fault(self.line, format!("{what} is missing at the end of the policy")),
        }
    }

    /// The next side is missing before the next token.
    fn missing_side<T>(&self) -> Result<T, Fault> {
        let Some(Open { name, line, filled, .. }) = self.open.last() else {
            return self.missing("a policy word");
        };
        let here = self.tokens.first().map_or(self.line, |token| token.line);
        let begun = if *line == here { String::new() } else { format!(" (line {line})") };
        self.missing(&format!("side {} of `{name}`{begun}", filled + 1))
    }

    /// Takes a word with its operand, which waits for its sides if it has any.
    fn word(&mut self) -> Result<(), Fault> {
        let name = match self.tokens.first() {
            Some(token) if !token.is_sign() => token.text,
            _ => return self.missing_side(),
        };
        self.next();
        let line = self.line;
        if self.read.words.len() == MOST_WORDS {
            return fault(line, format!("{} is one word more than {MOST_WORDS}", quoted(name)));
        }
        let word = self.value(name)?;
        self.read.words.push(word);
        self.read.lines.push(line);
        let parentheses = self.is_next("(");
        if parentheses && sides(word) == 0 {
            return fault(line, format!("parentheses behind `{name}`, which has no sides"));
        }
        if parentheses {
            self.next();
        }
        let name = name.to_string();
        self.open.push(Open { name, line, sides: sides(word), filled: 0, parentheses });
        Ok(())
    }

    /// The word with this name and the operand that follows.
    fn value(&mut self, name: &str) -> Result<u32, Fault> {
        match term_kind(name) {
            Some(ROLE) => {
                let role = self.operand("a role")?;
                Ok(ROLE << 24 | self.declared.roles.number(role)?)
            }
            Some(SET) => Ok(SET << 24 | self.set()?),
            Some(kind) => Ok(kind << 24),
            None if name == "word" => number(self.operand("a number")?, u32::MAX),
            None => fault(self.line, format!("{} is no policy word", quoted(name))),
        }
    }

    /// The users of a set, at least one.
    fn set(&mut self) -> Result<u32, Fault> {
        let mut users = 0;
        loop {
            let token = self.operand("a user")?;
            let user = self.declared.users.number(token)?;
            if users >> user & 1 == 1 {
                return fault(token.line, format!("user {user} stands here a second time"));
            }
            users |= 1 << user;
            if !self.tokens.first().is_some_and(|token| self.is_user(token)) {
                return Ok(users);
            }
        }
    }

    /// Whether a token goes on with a set: a number, or the name of a user.
    fn is_user(&self, token: &Token) -> bool {
        let is_digit = |c: char| c.is_ascii_digit();
        token.text.starts_with(is_digit) || self.declared.users.find(token.text).is_some()
    }

    /// An operand that must stand here.
    fn operand(&mut self, what: &str) -> Result<Token<'a>, Fault> {
        match self.tokens.first() {
            Some(token) if !token.is_sign() => Ok(self.next().unwrap_or(*token)),
            _ => self.missing(what),
        }
    }

    /// Ends each term that has all its sides. Whether a side is still to come.
    fn wants_side(&mut self) -> Result<bool, Fault> {
        while let Some(Open { sides, filled, parentheses, .. }) = self.open.last() {
            if filled < sides {
                if *parentheses && *filled > 0 {
                    self.comma()?;
                }
                return Ok(true);
            }
            if *parentheses {
                self.close()?;
            }
            self.open.pop();
            if let Some(outer) = self.open.last_mut() {
                outer.filled += 1;
            }
        }
        Ok(false)
    }

    /// Takes the comma before a side.
    fn comma(&mut self) -> Result<(), Fault> {
        match self.tokens.first() {
            Some(token) if token.text == "," => {
                self.next();
                Ok(())
            }
            Some(token) if !token.is_sign() => self.missing("`,`"),
            _ => self.missing_side(),
        }
    }

    /// Takes the parenthesis behind the last side.
    fn close(&mut self) -> Result<(), Fault> {
        if self.is_next(")") {
            self.next();
            return Ok(());
        }
        match self.open.last() {
            Some(Open { name, sides, .. }) if self.is_next(",") => {
                let line = self.tokens[0].line;
                fault(line, format!("one side more than the {sides} of `{name}`"))
            }
            _ => self.missing("`)`"),
        }
    }
}
