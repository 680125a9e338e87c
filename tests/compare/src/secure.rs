//! What was tried under permissions and workflows (02, E4): actions and closes in each situation of
//! interest, and masks for an action's number.

use reference::casefile::Case;
use reference::code;
use reference::event::{read_event, Event};
use reference::monitor::{Monitor, Taken, MOST_ACTIONS};
use reference::search::Search;
use reference::secure::{Given, Secure, ACTIONS};

use crate::report::Seen;

/// The states that refused actions would have led to since the last one that was taken.
#[derive(Clone, Copy, Debug, Default)]
struct Misled {
    by_9: Option<u8>,
    by_16: Option<u8>,
}

/// An action or a close on a monitor.
struct Tried<'a> {
    case: &'a Case,
    before: &'a Monitor<Taken>,
    event: Event,
    code: u32,
    misled: Misled,
}

/// A kind of event: its name, the number answered, and whether an event is of it.
type Kind = (&'static str, u32, fn(&Tried) -> bool);

/// All kinds; each must occur.
const KINDS: [Kind; 25] = [
    ("16 with a transition", 16, |tried| tried.next().is_some()),
    ("16 and 17", 16, |tried| tried.next().is_none()),
    ("16 and 8", 16, |tried| tried.is_full()),
    ("16 and 9", 16, |tried| !tried.is_possible()),
    ("16 for a number above 63", 16, |tried| tried.number() >= ACTIONS),
    ("16 for who was permitted at the opening", 16, |tried| tried.was_permitted()),
    ("16 for an action that a role gives which nobody holds", 16, |tried| tried.is_given_away()),
    ("17 and 8", 17, |tried| tried.is_full()),
    ("17 and 9", 17, |tried| !tried.is_possible()),
    ("17 behind the first state", 17, |tried| tried.before.state() != 0),
    ("17 for an action of another state", 17, |tried| tried.is_due_elsewhere()),
    ("8 where 16 and 17 do not apply", 8, |tried| tried.secure().is_some()),
    ("9 where the state would move", 9, |tried| tried.moves()),
    ("taken, and the state moves", 0, |tried| tried.moves()),
    ("taken, and the state stays", 0, |tried| tried.stays()),
    ("taken by who was not permitted at the opening", 0, |tried| {
        tried.is_action() && tried.secure().is_some() && !tried.was_permitted()
    }),
    ("taken, but not if 9 had moved the state", 0, |tried| tried.is_lost(tried.misled.by_9)),
    ("taken, but not if 16 had moved the state", 0, |tried| tried.is_lost(tried.misled.by_16)),
    ("taken with a number above 63, neither given", 0, |tried| {
        tried.is_action() && tried.secure().is_none() && tried.number() >= ACTIONS
    }),
    ("taken, both given but empty", 0, |tried| {
        tried.is_action() && tried.case.given == Some(Given::default())
    }),
    ("11 for the state alone", 11, |tried| tried.is_satisfied()),
    ("11 for the actions alone", 11, |tried| tried.secure().is_some() && tried.is_final()),
    ("11 for both", 11, |tried| !tried.is_satisfied() && !tried.is_final()),
    ("closed in the first state", 0, |tried| {
        tried.is_close_of_a_workflow() && tried.before.state() == 0
    }),
    ("closed in another state", 0, |tried| {
        tried.is_close_of_a_workflow() && tried.before.state() != 0
    }),
];

impl Tried<'_> {
    fn secure(&self) -> Option<&Secure> {
        self.before.secure()
    }

    fn is_action(&self) -> bool {
        matches!(self.event, Event::Action { .. })
    }

    fn is_close_of_a_workflow(&self) -> bool {
        self.event == Event::Close && self.secure().is_some()
    }

    /// The number of the action, and 0 for a close.
    fn number(&self) -> u8 {
        match self.event {
            Event::Action { action, .. } => action,
            _ => 0,
        }
    }

    /// The user who acts.
    fn user(&self) -> usize {
        match self.event {
            Event::Action { user, .. } => user,
            _ => 0,
        }
    }

    /// The state that the workflow has for the action behind some state.
    fn next_behind(&self, state: u8) -> Option<u8> {
        self.secure().filter(|_| self.is_action())?.workflow.next(state, self.number())
    }

    fn next(&self) -> Option<u8> {
        self.next_behind(self.before.state())
    }

    fn moves(&self) -> bool {
        self.next().is_some_and(|next| next != self.before.state())
    }

    fn stays(&self) -> bool {
        self.next() == Some(self.before.state())
    }

    /// Whether an action that is taken would not be, had the state moved to this one.
    fn is_lost(&self, moved: Option<u8>) -> bool {
        self.next().is_some() && moved.is_some_and(|state| self.next_behind(state).is_none())
    }

    /// Whether a transition of another state has the action.
    fn is_due_elsewhere(&self) -> bool {
        let mut arrows = self.secure().into_iter().flat_map(|secure| &secure.workflow.transitions);
        arrows.any(|arrow| arrow.action == self.number())
    }

    /// Whether the roles that the user held at the opening give the action.
    fn was_permitted(&self) -> bool {
        let row = self.case.user_roles[self.user()];
        let gives = |role: &usize| {
            self.secure().is_some_and(|secure| secure.permissions.contains(&(*role, self.number())))
        };
        (0..16).filter(|role| row >> role & 1 == 1).any(|role| gives(&role))
    }

    /// Whether some role gives the action, and no user holds such a role.
    fn is_given_away(&self) -> bool {
        let giving: Vec<usize> = self
            .secure()
            .into_iter()
            .flat_map(|secure| &secure.permissions)
            .filter(|(_, action)| *action == self.number())
            .map(|(role, _)| *role)
            .collect();
        let held = |role: &usize| {
            (0..self.before.users()).any(|user| self.before.held(user).contains(role))
        };
        !giving.is_empty() && !giving.iter().any(held)
    }

    fn is_full(&self) -> bool {
        self.before.taken().len() == MOST_ACTIONS
    }

    /// Whether the taken actions with this one are possible.
    fn is_possible(&self) -> bool {
        let held = self.before.held(self.user()).clone();
        let action = Taken { user: self.user(), held };
        let actions = [self.before.taken(), &[action]].concat();
        self.is_full() || Search::new(self.before.policy()).possible(&actions)
    }

    fn is_satisfied(&self) -> bool {
        Search::new(self.before.policy()).satisfied(self.before.taken())
    }

    /// Whether the workflow, if there is one, may end.
    fn is_final(&self) -> bool {
        let state = self.before.state();
        self.secure().is_none_or(|secure| secure.workflow.final_states.contains(&state))
    }
}

impl Misled {
    /// The same behind an event.
    fn behind(self, tried: &Tried) -> Misled {
        let moved = tried.next().filter(|_| tried.moves());
        match tried.code {
            code::ACCEPTED if tried.is_action() => Misled::default(),
            code::NOT_POSSIBLE => Misled { by_9: moved, ..self },
            code::NOT_AUTHORIZED => Misled { by_16: moved, ..self },
            _ => self,
        }
    }
}

/// The kinds of events that occurred.
#[derive(Clone, Debug)]
pub struct Events {
    seen: Seen,
}

impl Events {
    /// None yet; where all are wanted, each must occur.
    pub fn new(name: &str, all_wanted: bool) -> Events {
        let wanted = KINDS.iter().filter(|_| all_wanted).map(|(name, _, _)| *name);
        Events { seen: Seen::kinds(&format!("events under workflows in {name}"), wanted) }
    }

    /// Counts the actions and closes of a run.
    pub fn count(&mut self, case: &Case) {
        let Ok(mut monitor) = case.open::<Taken>() else {
            return;
        };
        let mut misled = Misled::default();
        for word in &case.events {
            let before = monitor.clone();
            let code = monitor.step(*word).code;
            let event = read_event(case.users.into(), case.roles.into(), *word);
            if let Ok(event @ (Event::Action { .. } | Event::Close)) = event {
                let tried = Tried { case, before: &before, event, code, misled };
                self.count_one(&tried);
                misled = misled.behind(&tried);
            }
        }
    }

    /// Counts one of them.
    fn count_one(&mut self, tried: &Tried) {
        for (name, number, holds) in KINDS {
            if number == tried.code && holds(tried) {
                self.seen.count_kind(name);
            }
        }
    }

    /// What occurred.
    pub fn seen(self) -> Seen {
        self.seen
    }
}

/// A mask that was asked for: the monitor, the action's number, and the answer to each user's trial.
struct Asked<'a> {
    monitor: &'a Monitor<Taken>,
    action: u8,
    trials: &'a [u32],
}

/// A kind of mask: its name, and whether one is of it.
type MaskKind = (&'static str, fn(&Asked) -> bool);

/// All kinds; each must occur.
const MASKS: [MaskKind; 11] = [
    ("nobody, all 16", |asked| asked.are_all(&[16])),
    ("nobody, all 17", |asked| asked.are_all(&[17])),
    ("nobody, some 16 and some 17", |asked| {
        asked.are_all(&[16, 17]) && asked.has(16) && asked.has(17)
    }),
    ("the last is let through", |asked| asked.highest() == Some(asked.last())),
    ("the highest let through is another, and may act", |asked| asked.is_of_another(0)),
    ("the highest let through is another, and may not", |asked| asked.is_of_another(9)),
    ("only one below the highest let through may act", |asked| {
        asked.is_of_another(9) && asked.has(0)
    }),
    ("full, but for 16 and 17", |asked| asked.is_given() && asked.has(8)),
    ("a number above 63", |asked| asked.is_given() && asked.action >= ACTIONS),
    ("a number above 63, neither given", |asked| {
        !asked.is_given() && asked.action >= ACTIONS && asked.has(0)
    }),
    ("another mask for another number", |asked| asked.is_other_for_another()),
];

impl Asked<'_> {
    fn is_given(&self) -> bool {
        self.monitor.secure().is_some()
    }

    fn has(&self, code: u32) -> bool {
        self.trials.contains(&code)
    }

    fn are_all(&self, codes: &[u32]) -> bool {
        self.is_given() && self.trials.iter().all(|code| codes.contains(code))
    }

    fn last(&self) -> usize {
        self.trials.len() - 1
    }

    /// The highest user whose trial gets neither 16 nor 17.
    fn highest(&self) -> Option<usize> {
        let highest = self.trials.iter().rposition(|code| ![16, 17].contains(code));
        highest.filter(|_| self.is_given())
    }

    /// Whether that is not the last user, and the trial gets this number.
    fn is_of_another(&self, code: u32) -> bool {
        self.highest().is_some_and(|user| user != self.last() && self.trials[user] == code)
    }

    fn is_other_for_another(&self) -> bool {
        let other = self.monitor.mask(self.action ^ 1);
        other != 0 && self.has(0) && other != self.monitor.mask(self.action)
    }
}

/// The kinds of masks that occurred.
#[derive(Clone, Debug)]
pub struct Masks {
    seen: Seen,
}

impl Masks {
    /// None yet; each must occur.
    pub fn new(name: &str) -> Masks {
        let wanted = MASKS.iter().map(|(name, _)| *name);
        Masks { seen: Seen::kinds(&format!("masks under workflows in {name}"), wanted) }
    }

    /// Counts the mask for an action's number.
    pub fn count(&mut self, monitor: &Monitor<Taken>, action: u8) {
        let trials = monitor.trials(action);
        let asked = Asked { monitor, action, trials: &trials };
        for (name, _) in MASKS.iter().filter(|(_, holds)| holds(&asked)) {
            self.seen.count_kind(name);
        }
    }

    /// What occurred.
    pub fn seen(self) -> Seen {
        self.seen
    }
}

#[cfg(test)]
mod tests {
    use super::*;
    use crate::report::Report;
    use reference::generate::{edges, secure, Random};

    /// Asserts that everything wanted was counted.
    fn are_whole(seen: Vec<Seen>) {
        let report = Report { groups: vec![], seen };
        assert!(report.passed(), "{report}");
    }

    #[test]
    fn edges_are_of_every_kind() {
        let mut events = Events::new("edges", true);
        edges::secure::runs().iter().for_each(|(_, case)| events.count(case));
        are_whole(vec![events.seen()]);
    }

    #[test]
    fn random_cases_are_of_many_kinds() {
        let mut events = Events::new("cases", false);
        let mut random = Random::new(5);
        (0..2000).for_each(|_| events.count(&secure::case(&mut random)));
        let text = events.seen().to_string();
        for name in
            ["16 and 17", "17 and 9", "11 for the state alone", "9 where the state would move"]
        {
            assert!(text.contains(name), "{text}");
        }
    }
}
