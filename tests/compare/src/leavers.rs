//! Which users were tried under a policy with a not (02, E3, "A leaver must not pass as not Anna"):
//! ones who hold no role, any longer or yet, and ones whom a not lets act.

use reference::casefile::Case;
use reference::code;
use reference::event::{read_event, Event};
use reference::examples::action;
use reference::monitor::{Monitor, Outcome, Taken};
use reference::policy::Term;
use reference::search::Search;

use crate::report::Seen;

/// An action that was judged under a policy with a not.
#[derive(Clone, Copy)]
struct Trial<'a> {
    case: &'a Case,
    policy: &'a Term,
    before: &'a [Taken],
    action: &'a Taken,
    /// Whether the user held a role at some time of the run.
    had_role: bool,
}

/// A kind of trial: its name, and whether a trial is of it.
type Kind = (&'static str, fn(&Trial) -> bool);

/// All kinds; each must occur.
const KINDS: [Kind; 9] = [
    ("no role yet", |trial| trial.has_no_role() && !trial.had_role),
    ("a leaver", |trial| trial.is_leaver()),
    ("a leaver who acted", |trial| trial.is_leaver() && trial.has_acted()),
    ("a leaver in a set under a not", |trial| trial.is_leaver() && trial.has_set(true)),
    ("a leaver outside a set under a not", |trial| trial.is_leaver() && trial.has_set(false)),
    ("a leaver under a not over a not", |trial| trial.is_leaver() && trial.has_not_over_not()),
    ("a leaver whom another role would let act", |trial| trial.is_leaver() && trial.lacks_a_role()),
    ("let act by a not", |trial| trial.is_by_a_not()),
    ("let act by a not and a first role", |trial| trial.is_newcomer() && trial.is_by_a_not()),
];

/// The kind of accepted closes that must occur where events are counted.
const CLOSE: &str = "a close with a leaver's action";

impl Trial<'_> {
    fn has_no_role(&self) -> bool {
        self.action.held.is_empty()
    }

    fn is_leaver(&self) -> bool {
        self.has_no_role() && self.had_role
    }

    /// Whether the user holds a role, but held none at the opening.
    fn is_newcomer(&self) -> bool {
        !self.has_no_role() && self.case.user_roles[self.action.user] == 0
    }

    fn has_acted(&self) -> bool {
        self.before.iter().any(|action| action.user == self.action.user)
    }

    /// Whether some not stands over a set that the user is in, or is not in.
    fn has_set(&self, inside: bool) -> bool {
        let is_such = |inner: &Term| match inner {
            Term::Set(users) => users.contains(&self.action.user) == inside,
            _ => false,
        };
        denied(self.policy).into_iter().any(is_such)
    }

    fn has_not_over_not(&self) -> bool {
        denied(self.policy).into_iter().any(|inner| matches!(inner, Term::Not(_)))
    }

    /// Whether a not would let the user act with another role, one that no policy names.
    fn lacks_a_role(&self) -> bool {
        let action = Taken { user: self.action.user, held: [self.case.roles.into()].into() };
        Trial { action: &action, ..*self }.is_by_a_not()
    }

    /// Whether the action is possible, and would not be if nobody met a not.
    fn is_by_a_not(&self) -> bool {
        self.is_possible(self.policy) && !self.is_possible(&without_nots(self.policy))
    }

    fn is_possible(&self, policy: &Term) -> bool {
        let actions = [self.before, std::slice::from_ref(self.action)].concat();
        Search::new(policy).possible(&actions)
    }
}

/// The terms under a not.
fn denied(policy: &Term) -> Vec<&Term> {
    let mut found = Vec::new();
    for term in policy.prefix_order() {
        if let Term::Not(inner) = term {
            found.push(&**inner);
        }
    }
    found
}

/// The term with one that nobody meets in place of each not.
fn without_nots(term: &Term) -> Term {
    match term {
        Term::Not(_) => Term::not(Term::Everyone),
        Term::Plus(inner) => Term::plus(without_nots(inner)),
        Term::Join(operator, left, right) => {
            Term::join(*operator, without_nots(left), without_nots(right))
        }
        Term::Everyone | Term::Role(_) | Term::Set(_) => term.clone(),
    }
}

/// A case that opens under a policy with a not, and its monitor.
fn opened(case: &Case) -> Option<Monitor<Taken>> {
    let monitor: Monitor<Taken> = case.open().ok()?;
    (!denied(monitor.policy()).is_empty()).then_some(monitor)
}

/// What an event word of a case says.
fn read(case: &Case, word: u32) -> Option<Event> {
    read_event(case.users.into(), case.roles.into(), word).ok()
}

/// Whether a user holds a role at the opening of a case, or is given one by its first so many events.
fn had_role(case: &Case, user: usize, events: usize) -> bool {
    let gives = |word: &u32| match read(case, *word) {
        Some(Event::Grant { user: to, .. }) => to == user,
        _ => false,
    };
    case.user_roles[user] != 0 || case.events[..events].iter().any(gives)
}

/// The kinds of trials that occurred.
#[derive(Clone, Debug)]
pub struct Leavers {
    seen: Seen,
}

impl Leavers {
    /// None yet; where all are wanted, each must occur among the events.
    pub fn of_events(name: &str, all_wanted: bool) -> Leavers {
        let kinds = KINDS.iter().map(|(name, _)| *name).chain([CLOSE]);
        Leavers { seen: Seen::kinds(&format!("leavers in {name}"), kinds.filter(|_| all_wanted)) }
    }

    /// None yet; each must occur among the users who are tried for a mask.
    pub fn of_masks(name: &str) -> Leavers {
        let kinds = KINDS.iter().map(|(name, _)| *name);
        Leavers { seen: Seen::kinds(&format!("leavers in {name}"), kinds) }
    }

    /// Counts the actions and closes of a run.
    pub fn count_events(&mut self, case: &Case) {
        let Some(mut monitor) = opened(case) else {
            return;
        };
        for (place, word) in case.events.iter().enumerate() {
            let outcome = monitor.step(*word);
            match read(case, *word) {
                Some(Event::Action { .. }) => {
                    self.count(case, place, monitor.policy(), &outcome);
                }
                Some(Event::Close) if outcome.code == code::ACCEPTED => self.count_close(&monitor),
                _ => {}
            }
        }
    }

    /// Counts the trials of all users with action 0, at the opening of a run and behind each event.
    pub fn count_masks(&mut self, case: &Case) {
        let Some(mut monitor) = opened(case) else {
            return;
        };
        for place in 0..=case.events.len() {
            for user in 0..case.users.into() {
                let outcome = monitor.clone().step(action(user));
                self.count(case, place, monitor.policy(), &outcome);
            }
            case.events.get(place).map(|word| monitor.step(*word));
        }
    }

    /// Counts an action behind so many events, if it was judged.
    fn count(&mut self, case: &Case, events: usize, policy: &Term, outcome: &Outcome<Taken>) {
        let Some([before @ .., action]) = outcome.judged.as_deref() else {
            return;
        };
        let had_role = had_role(case, action.user, events);
        let trial = Trial { case, policy, before, action, had_role };
        for (name, _) in KINDS.iter().filter(|(_, holds)| holds(&trial)) {
            self.seen.count_kind(name);
        }
    }

    /// Counts an accepted close, if someone who acted has left.
    fn count_close(&mut self, monitor: &Monitor<Taken>) {
        let rows = monitor.raw().user_roles;
        if monitor.taken().iter().any(|action| rows[action.user] == 0) {
            self.seen.count_kind(CLOSE);
        }
    }

    /// What occurred.
    pub fn seen(self) -> Seen {
        self.seen
    }
}

#[cfg(test)]
mod tests {
    use super::*;
    use crate::report::Report;
    use reference::casefile::read_case;
    use reference::generate::{cases, edges, Random};

    /// Asserts that there is each kind, among events and among users tried for a mask.
    fn are_of_every_kind(cases: impl IntoIterator<Item = Case>) {
        let mut events = Leavers::of_events("cases", true);
        let mut masks = Leavers::of_masks("cases");
        for case in cases {
            events.count_events(&case);
            masks.count_masks(&case);
        }
        let report = Report { groups: vec![], seen: vec![events.seen(), masks.seen()] };
        assert!(report.passed(), "{report}");
    }

    #[test]
    fn edges_are_of_every_kind() {
        are_of_every_kind(edges::leavers().into_iter().map(|(_, case)| case));
    }

    #[test]
    fn random_files_are_of_every_kind() {
        let mut random = Random::new(3);
        let files = (0..1100).map(|turn| cases::random_file(&mut random, turn));
        are_of_every_kind(files.filter_map(|(_, bytes)| read_case(&bytes).ok()));
    }

    #[test]
    fn a_policy_without_a_not_is_not_counted() {
        let mut leavers = Leavers::of_events("nothing", true);
        for (_, mut case) in edges::leavers() {
            case.policy = vec![0x05000000, 0x01000000];
            leavers.count_events(&case);
        }
        assert!(!leavers.seen().to_string().contains("1x"));
    }
}
