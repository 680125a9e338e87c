//! A case, run through the library.

use crate::declared::{Declared, Names};
use crate::file::{self, Case};
use crate::mark;
use crate::monitor::{self, Opened, Refused, MOST_PERMITTED};
use crate::names::{bits, event_word};
use crate::plan;
use crate::text::Source;

/// What is printed of a run.
pub struct Report {
    /// The judge's lines, each with who may act, and those of events with the event and what its
    /// number says; or the judge's line of a refusal with what its number says, and the policy with
    /// the fault marked.
    pub text: String,
    /// Whether the file and the opening were accepted.
    pub accepted: bool,
}

/// One event in columns: the judge's line, the event, who may act, and what its number says.
type Row = [String; 4];

/// Runs a case file. Where it was a text, its policy words have lines, and what it names is shown by
/// name.
pub fn report(bytes: &[u8], source: Option<&Source>) -> Report {
    let case = match file::read(bytes) {
        Ok(case) => case,
        Err(reason) => return refused(&monitor::malformed(), &format!(": {reason}"), source, ""),
    };
    let numbered = Declared::numbered(case.counts());
    let declared = source.map_or(&numbered, |source| &source.declared);
    match monitor::open(&case) {
        Ok(opened) => Report { text: events(&case, opened, declared), accepted: true },
        Err(refusal) => {
            let reason = reason(&case, &refusal);
            refused(&refusal, &reason, source, &mark::fault(&case, &refusal))
        }
    }
}

/// What is printed of a refusal: the judge's line, where and what is wrong, and the policy with a mark.
fn refused(refusal: &Refused, reason: &str, source: Option<&Source>, mark: &str) -> Report {
    let line = mark::line(refusal, source.map_or(&[], |source| &source.lines));
    let text = format!("{refusal}  {line}{}{reason}\n{mark}", refusal.sentence);
    Report { text, accepted: false }
}

/// What is out of form with permissions and workflow, if that is what was refused.
fn reason(case: &Case, refusal: &Refused) -> String {
    match plan::read(case) {
        Err(reason) if refusal.number == monitor::OUT_OF_FORM => format!(": {reason}"),
        _ => String::new(),
    }
}

/// The lines of the events, in columns, and the number of actions taken.
fn events(case: &Case, mut opened: Opened, declared: &Declared) -> String {
    let places = (1..).zip(&case.events);
    let rows: Vec<Row> =
        places.map(|(place, word)| row(declared, &mut opened, place, *word)).collect();
    let length = |text: &String| text.chars().count();
    let width = |column: usize| rows.iter().map(|row| length(&row[column])).max().unwrap_or(0);
    let (first, second, third) = (width(0), width(1), width(2));
    let line = |[judged, event, users, sentence]: &Row| {
        format!("{judged:first$}  {event:second$}  {users:third$}  {sentence}\n")
    };
    let lines: String = rows.iter().map(line).collect();
    lines + &format!("taken {}  {}\n", opened.taken(), may_act(&mut opened, declared))
}

/// Sends one event.
fn row(declared: &Declared, opened: &mut Opened, place: usize, word: u32) -> Row {
    let (number, sentence) = match opened.event(word) {
        Ok(()) => (0, "accepted".to_string()),
        Err(Refused { number, sentence, .. }) => (number, sentence),
    };
    let judged = format!("{place} {number} {}", opened.status());
    [judged, event_word(word, declared), may_act(opened, declared), sentence]
}

/// Who may act; with a workflow, for each action that somebody may execute.
fn may_act(opened: &mut Opened, declared: &Declared) -> String {
    let who = if opened.has_workflow() {
        let groups = who_executes(opened);
        let told = |(mask, actions): &(u16, Vec<u32>)| {
            let actions = named(&declared.actions, actions.iter().copied());
            format!("{actions} by {}", named(&declared.users, bits((*mask).into())))
        };
        groups.iter().map(told).collect::<Vec<String>>().join(", ")
    } else {
        named(&declared.users, bits(opened.enabled(0).into()))
    };
    format!("may act: {}", if who.is_empty() { "nobody" } else { &who })
}

/// The actions that somebody may execute, those of the same users together.
fn who_executes(opened: &mut Opened) -> Vec<(u16, Vec<u32>)> {
    let mut groups: Vec<(u16, Vec<u32>)> = Vec::new();
    for action in 0..=MOST_PERMITTED {
        let mask = opened.enabled(action as u8);
        match groups.iter_mut().find(|(own, _)| *own == mask) {
            _ if mask == 0 => {}
            Some((_, actions)) => actions.push(action),
            None => groups.push((mask, vec![action])),
        }
    }
    groups
}

/// Names parted by blanks.
fn named(names: &Names, numbers: impl Iterator<Item = u32>) -> String {
    numbers.map(|number| names.name(number)).collect::<Vec<String>>().join(" ")
}
