//! The linked library, as far as this tool uses it. No other module names it.

use std::fmt;

use oskhrein::{Monitor, Refusal, Term, Workspace};

use crate::file::{Case, Secure};
use crate::names::Counts;

/// The most words of a policy.
pub const MOST_WORDS: usize = oskhrein::MAX_WORDS;
/// The most users.
pub const MOST_USERS: usize = oskhrein::MAX_USERS;
/// The most roles.
pub const MOST_ROLES: usize = oskhrein::MAX_ROLES;
/// The most states of a workflow.
pub const MOST_STATES: usize = oskhrein::MAX_STATES;
/// The most transitions of a workflow.
pub const MOST_TRANSITIONS: usize = oskhrein::MAX_TRANSITIONS;
/// The last number of an action that permissions and transitions may name.
pub const MOST_PERMITTED: u32 = oskhrein::ACTION_NUMBERS as u32 - 1;

/// The number of permissions and a workflow that are out of form.
pub const OUT_OF_FORM: u8 = Refusal::Workflow.number();

/// With what a policy's text begins.
pub const OPENING: &str = "policy: ";

/// A refusal: its number, the place of a policy's fault, and what the number says.
#[derive(Clone, Debug, PartialEq, Eq)]
pub struct Refused {
    /// The number.
    pub number: u8,
    /// The place, if it is a policy's fault.
    pub place: Option<usize>,
    /// What it says.
    pub sentence: String,
}

impl From<Refusal> for Refused {
    /// What a number says of multisets is left out: none is tested here.
    fn from(refusal: Refusal) -> Refused {
        let own = refusal.sentence().split(';').next().unwrap_or_default();
        let (number, place) = (refusal.number(), refusal.place());
        Refused { number, place, sentence: own.to_string() }
    }
}

/// As the judge prints it.
impl fmt::Display for Refused {
    fn fmt(&self, formatter: &mut fmt::Formatter) -> fmt::Result {
        write!(formatter, "refused {}", self.number)?;
        match self.place {
            Some(place) => write!(formatter, " at {place}"),
            None => Ok(()),
        }
    }
}

/// The refusal of a malformed case file.
pub fn malformed() -> Refused {
    Refusal::Case.into()
}

/// A case that was opened.
pub struct Opened {
    monitor: Monitor,
    workspace: Workspace,
}

/// Opens a case.
///
/// # Errors
/// The opening's refusal.
pub fn open(case: &Case) -> Result<Opened, Refused> {
    let Case { users, roles, policy, grants, .. } = case;
    let Secure { permissions, workflow } = case.secure.clone().unwrap_or_default();
    let opened = Monitor::open_bytes(*users, *roles, policy, grants, &permissions, &workflow);
    Ok(Opened { monitor: opened?, workspace: Workspace::new() })
}

impl Opened {
    /// One event, by its word.
    ///
    /// # Errors
    /// The event's refusal.
    pub fn event(&mut self, word: u32) -> Result<(), Refused> {
        match self.monitor.event_word(word, &mut self.workspace) {
            Err(Refusal::NotSatisfied) => {
                let sentence = self.missing().to_string();
                Err(Refused { sentence, ..Refusal::NotSatisfied.into() })
            }
            answer => Ok(answer?),
        }
    }

    /// What a refused close lacks: its number is one for the policy and the workflow.
    fn missing(&self) -> &'static str {
        let ended =
            !self.has_workflow() || self.monitor.final_states() >> self.monitor.state() & 1 == 1;
        match (self.status(), ended) {
            ('o', true) => "close, but not satisfied",
            ('o', false) => "close, but not satisfied, and the workflow is in no final state",
            _ => "close, but the workflow is in no final state",
        }
    }

    /// Whether permissions and a workflow are given.
    pub fn has_workflow(&self) -> bool {
        self.monitor.states() != 0
    }

    /// The letter of the status.
    pub fn status(&self) -> char {
        let status = self.monitor.status();
        status.expect("what was opened and sent events stays well formed").letter()
    }

    /// The users who may act with this number, bit u for user u.
    pub fn enabled(&mut self, action: u8) -> u16 {
        let users = self.monitor.enabled(action, &mut self.workspace);
        users.expect("what was opened and sent events stays well formed").bits()
    }

    /// How many actions are taken.
    pub fn taken(&self) -> usize {
        self.monitor.actions().len()
    }
}

/// The normal form of a case's policy.
///
/// # Errors
/// The refusal of the policy or the counts.
pub fn normal_form(case: &Case) -> Result<Vec<u32>, Refused> {
    let mut out = [0; MOST_WORDS];
    Ok(oskhrein::normal_form(case.users, case.roles, &case.policy, &mut out)?.to_vec())
}

/// A case's policy, which is accepted, as whole alternatives.
///
/// # Errors
/// That these have too many words.
pub fn alternatives(case: &Case) -> Result<Vec<u32>, Refused> {
    let whole = Term::try_from(&case.policy[..])?.alternatives()?;
    Ok(whole.words().to_vec())
}

/// The words that a policy's text says, with these counts.
///
/// # Errors
/// The refusal of the text, the counts or the words.
pub fn read_text(text: &str, counts: Counts) -> Result<Vec<u32>, Refused> {
    let mut out = [0; MOST_WORDS];
    Ok(oskhrein::read_text(counts.users, counts.roles, text, &mut out)?.to_vec())
}

/// The text of a policy's words, with these counts.
///
/// # Errors
/// The refusal of the counts or the words.
pub fn write_text(words: &[u32], counts: Counts) -> Result<String, Refused> {
    let mut out = [0; oskhrein::LONGEST_TEXT];
    Ok(oskhrein::write_text(counts.users, counts.roles, words, &mut out)?.to_string())
}

/// The text of an accepted policy's words.
pub fn text_of(words: &[u32], counts: Counts) -> String {
    write_text(words, counts).expect("an accepted policy has a text")
}

/// Whether a multiset of users satisfies a case's policy.
#[cfg(test)]
pub fn satisfies(case: &Case, counts: &[u8; MOST_USERS]) -> Result<bool, Refused> {
    let Case { users, roles, policy, grants, .. } = case;
    let workspace = &mut Workspace::new();
    Ok(oskhrein::satisfies(*users, *roles, policy, grants, counts, workspace)?)
}
