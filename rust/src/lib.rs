//! A safe interface to Oskhrein, the proved separation-of-duty monitor.
//!
//! A [`Monitor`] follows one run under a policy. It takes an action by a user or turns it away, lets
//! roles be granted and withdrawn, tells who may act next, and is closed once its actions satisfy
//! the policy; [`satisfies`] asks about a multiset of users instead, and [`normal_form`] writes a
//! policy in its normal form. [`read_text`] and [`write_text`] turn a policy's readable text into its
//! words and back, and [`Term::alternatives`] splits choices out of a policy's joint duties. A
//! [`SecureWorkflow`] may say besides which role gives which action, and in which order actions come.
//! Calls that judge actions are lent a [`Workspace`]; the status and a close judge none. A call takes up
//! to 128 KiB of stack. Nothing is kept between calls but what the caller holds.
//!
//! Document 01 has words of its own for some of these: a monitor is its sheet, a workspace its
//! work room, a status its standing, a multiset its bag, and users are people. Permissions and
//! workflow are document 02's permission sheet and work plan, a transition its arrow.
//!
//! # Policies
//!
//! A policy is 1 to 31 words in prefix order: a word, then its sides. A [`Term`] makes them; the
//! calls take any. The kind is in bits 24 to 31, the operand in bits 0 to 15, all else is zero.
//!
//! | kind | term | operand | in a text |
//! |---|---|---|---|
//! | 1 | everyone | 0 | `all` |
//! | 2 | role | role number | `r2` |
//! | 3 | set | mask of users, not zero | `{0,3,15}` |
//! | 4 | not | 0 | `not all` |
//! | 5 | plus | 0 | `plus all` |
//! | 6 | either | 0 | `(r0 or r1)` |
//! | 7 | both | 0 | `(r0 both r1)` |
//! | 8 | together | 0 | `(r0 with r1)` |
//! | 9 | apart | 0 | `(r0 apart r1)` |
//!
//! The number of a word's sides goes by its kind: below 4 none, below 6 one, else two.
//!
//! A policy's text, which agreements print, is `policy: ` and then its term as the last column has
//! it. Numbers are 0 to 15 without a leading zero, the users of a set ascend, and nothing else stands
//! before, between or behind, no further space and no line end. So a policy has one text only. A
//! [`Term`] parses from it and prints it.
//!
//! The fault of a refused policy has a place among its words, which the [`Refusal`] tells.
//!
//! # Example
//!
//! Document 01's listing L, whose policy is Example 3 of document 004: an accountant (role 0), and
//! as somebody else a manager (role 2) or two more accountants, who differ too; with them, one or
//! more actions by anybody who holds a role.
//!
//! ```
//! use oskhrein::{Event, Monitor, Refusal, Status, Term, Workspace};
//!
//! # fn main() -> Result<(), Refusal> {
//! let (accountant, manager) = (Term::role(0)?, Term::role(2)?);
//! let others = Term::either(manager, Term::apart(accountant, accountant)?)?;
//! let duties = Term::apart(accountant, others)?;
//! let policy = Term::together(duties, Term::plus(Term::everyone())?)?;
//! let mut workspace = Workspace::new();
//! let mut quote = Monitor::open(3, 3, policy.words(), &[2, 1, 0])?;
//!
//! quote.event(Event::Action { user: 0, number: 1 }, &mut workspace)?;
//! quote.event(Event::Action { user: 1, number: 2 }, &mut workspace)?;
//! quote.event(Event::Grant { user: 1, role: 2 }, &mut workspace)?;
//! quote.event(Event::Grant { user: 2, role: 2 }, &mut workspace)?;
//! assert_eq!(quote.close(), Err(Refusal::NotSatisfied));
//! assert_eq!(quote.status()?, Status::Open);
//!
//! quote.event(Event::Action { user: 2, number: 3 }, &mut workspace)?;
//! assert_eq!(quote.status()?.letter(), 'c');
//! quote.event(Event::Action { user: 0, number: 4 }, &mut workspace)?;
//! quote.close()?;
//! assert_eq!(quote.status()?.letter(), 'd');
//!
//! let late = quote.event(Event::Action { user: 0, number: 4 }, &mut workspace);
//! assert_eq!(late.map_err(Refusal::number), Err(10));
//! assert_eq!(quote.actions().len(), 4);
//! # Ok(())
//! # }
//! ```

#![warn(missing_docs)]
#![warn(unsafe_code)]

mod alternatives;
mod event;
mod monitor;
mod permissions;
#[allow(unsafe_code)]
pub mod raw;
mod refusal;
mod reload;
mod secure;
mod status;
mod term;
mod users;
mod workflow;
mod workspace;

pub use event::Event;
pub use monitor::Monitor;
pub use permissions::Permissions;
pub use raw::{Action, Transition, ACTION_NUMBERS, LAYOUT, MAX_ACTIONS, MAX_ROLES, MAX_STATES};
pub use raw::{LONGEST_TEXT, MAX_TEXT, MAX_TRANSITIONS, MAX_USERS, MAX_WORDS};
pub use refusal::Refusal;
pub use reload::ReloadFault;
pub use secure::{SecureWorkflow, WorkflowFault};
pub use status::Status;
pub use term::Term;
pub use users::{Users, UsersIter};
pub use workflow::Workflow;
pub use workspace::Workspace;

use raw::Calls;

/// Whether a multiset of users satisfies a policy: user u occurs `counts[u]` times. The empty
/// multiset does not. Permissions and a workflow play no part.
///
/// After a yes or a no the workspace speaks of the multiset's actions, numbered by ascending user:
/// action 0 is by the lowest user who occurs, and those of one user are next to each other. So the
/// same question leaves equal workspaces.
///
/// # Errors
/// The first that applies of the refusals of [`Monitor::open`], in its order,
/// [`Malformed`](Refusal::Malformed) and [`Full`](Refusal::Full).
///
/// # Example
///
/// Two different users who both hold role 0:
///
/// ```
/// use oskhrein::Term;
///
/// let apart = Term::apart(Term::role(0)?, Term::role(0)?)?;
/// let apart = apart.words();
/// let mut workspace = oskhrein::Workspace::new();
/// let mut counts = [0; oskhrein::MAX_USERS];
/// counts[0] = 2;
/// assert_eq!(oskhrein::satisfies(2, 1, apart, &[1, 1], &counts, &mut workspace), Ok(false));
/// counts[..2].copy_from_slice(&[1, 1]);
/// assert_eq!(oskhrein::satisfies(2, 1, apart, &[1, 1], &counts, &mut workspace), Ok(true));
/// # Ok::<(), oskhrein::Refusal>(())
/// ```
///
/// User 0 twice and user 2 once: actions 0 and 1 are by user 0, action 2 is by user 2. Role 0
/// apart from role 1 is satisfied by action 0 with action 2, but not by action 0 with action 1:
///
/// ```
/// use oskhrein::Term;
///
/// let apart = Term::apart(Term::role(0)?, Term::role(1)?)?;
/// let mut workspace = oskhrein::Workspace::new();
/// let mut counts = [0; oskhrein::MAX_USERS];
/// (counts[0], counts[2]) = (2, 1);
/// oskhrein::satisfies(3, 2, apart.words(), &[1, 1, 2], &counts, &mut workspace)?;
/// assert_eq!(workspace.satisfied(0b101) & 1, 1);
/// assert_eq!(workspace.satisfied(0b011) & 1, 0);
/// # Ok::<(), oskhrein::Refusal>(())
/// ```
pub fn satisfies(
    users: u8,
    roles: u8,
    policy: &[u32],
    user_roles: &[u16],
    counts: &[u8; MAX_USERS],
    workspace: &mut Workspace,
) -> Result<bool, Refusal> {
    let (words, mut place) = (workspace.words_mut(), 0);
    let calls = Calls::LINKED;
    let answer = calls.satisfies(users, roles, policy, user_roles, counts, words, &mut place);
    refusal::verdict(answer, place)
}

/// Writes the normal form of a policy at the start of an output, and gives it back. It has as many
/// words as the policy; the rest of the output keeps what it had.
///
/// Policies with the same normal form, and the same users, roles, permissions and workflow, give any
/// list of events the same answers.
///
/// # Errors
/// The first that applies of [`Counts`](Refusal::Counts), [`WordCount`](Refusal::WordCount),
/// [`Word`](Refusal::Word), [`Term`](Refusal::Term), [`Unit`](Refusal::Unit) and
/// [`Output`](Refusal::Output).
///
/// # Example
///
/// ```
/// use oskhrein::Term;
///
/// let policy = Term::together(Term::role(0)?, Term::everyone())?;
/// let mut out = [0; oskhrein::MAX_WORDS];
/// let normal = oskhrein::normal_form(3, 3, policy.words(), &mut out)?;
/// assert_eq!(normal, Term::together(Term::everyone(), Term::role(0)?)?.words());
/// # Ok::<(), oskhrein::Refusal>(())
/// ```
pub fn normal_form<'a>(
    users: u8,
    roles: u8,
    policy: &[u32],
    out: &'a mut [u32],
) -> Result<&'a [u32], Refusal> {
    let mut place = 0;
    let answer = Calls::LINKED.normal_form(users, roles, policy, out, &mut place);
    refusal::policy_accepted(answer, place).map(|()| &out[..policy.len()])
}

/// Reads a policy's text, and gives the policy's words, which are written at the start of an output;
/// the rest of it keeps what it had. Any bytes are answered.
///
/// A [`Term`] parses from a text too, where no counts are known yet.
///
/// # Errors
/// The first that applies of [`Opening`](Refusal::Opening), [`Text`](Refusal::Text),
/// [`Counts`](Refusal::Counts), [`WordCount`](Refusal::WordCount), [`Word`](Refusal::Word),
/// [`Unit`](Refusal::Unit) and [`Output`](Refusal::Output); an output of [`MAX_WORDS`] is never too
/// short. A number above 15 is `Text`, a lower one that is not declared `Word`. The place of a fault is
/// that of a word, where an operator comes before its sides, not that of a byte.
///
/// # Example
///
/// ```
/// use oskhrein::{Refusal, Term};
///
/// let mut out = [0; oskhrein::MAX_WORDS];
/// let words = oskhrein::read_text(2, 2, "policy: (r0 apart r1)", &mut out)?;
/// assert_eq!(words, Term::apart(Term::role(0)?, Term::role(1)?)?.words());
///
/// let mut read = |text: &str| oskhrein::read_text(2, 2, text, &mut out).map(|words| words.len());
/// assert_eq!(read("policy: (r0 apart r2)"), Err(Refusal::Word { place: 2 }));
/// assert_eq!(read("policy: (r0 apart r16)"), Err(Refusal::Text));
/// assert_eq!(read("(r0 apart r1)"), Err(Refusal::Opening));
/// # Ok::<(), Refusal>(())
/// ```
pub fn read_text(
    users: u8,
    roles: u8,
    text: impl AsRef<[u8]>,
    out: &mut [u32],
) -> Result<&[u32], Refusal> {
    let (text, mut written, mut place) = (text.as_ref(), 0, 0);
    let answer = Calls::LINKED.read_text(users, roles, text, out, &mut written, &mut place);
    refusal::policy_accepted(answer, place).map(|()| &out[..written])
}

/// Writes a policy's text at the start of an output, and gives it back; the rest of the output keeps
/// what it had.
///
/// To read what was written gives the same words, and to write what was read the same text.
///
/// # Errors
/// The first that applies of [`Counts`](Refusal::Counts), [`WordCount`](Refusal::WordCount),
/// [`Word`](Refusal::Word), [`Term`](Refusal::Term), [`Unit`](Refusal::Unit) and
/// [`Output`](Refusal::Output); an output of [`LONGEST_TEXT`] is never too short.
///
/// # Example
///
/// ```
/// use oskhrein::Term;
///
/// let policy = Term::together(Term::set(&[3, 0])?, Term::plus(Term::everyone())?)?;
/// let mut out = [0; oskhrein::LONGEST_TEXT];
/// let text = oskhrein::write_text(4, 1, policy.words(), &mut out)?;
/// assert_eq!(text, "policy: ({0,3} with plus all)");
/// # Ok::<(), oskhrein::Refusal>(())
/// ```
pub fn write_text<'a>(
    users: u8,
    roles: u8,
    policy: &[u32],
    out: &'a mut [u8],
) -> Result<&'a str, Refusal> {
    let (mut written, mut place) = (0, 0);
    let answer = Calls::LINKED.write_text(users, roles, policy, out, &mut written, &mut place);
    refusal::policy_accepted(answer, place)?;
    Ok(std::str::from_utf8(&out[..written]).expect("a text is ASCII"))
}
