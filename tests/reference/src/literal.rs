//! Definitions 3 to 7 of document 004, rule by rule, and its processes of a secure workflow, for small
//! cases; rule (4) of Definition 3 is the one that 02's E3 puts in its place.
//!
//! Nothing here is shared with the search: users' roles are a relation, multisets are counts,
//! traces are lists of events, and processes are labelled transitions.

mod multisets;
mod processes;
mod traces;

pub use multisets::{multiset_satisfies, Multiset};
pub use processes::{accepts, map_term, next, Process, Reading, Synchronised};
pub use processes::{secure_workflow, Permissions, Transitions};
pub use traces::{si, trace_satisfies, users_of};

use std::collections::BTreeSet;

/// A user-assignment relation: the pairs of a user and a role (Definition 1).
pub type Assignment = BTreeSet<(usize, usize)>;

/// An event of a trace or a process.
#[derive(Clone, Copy, Debug, PartialEq, Eq, PartialOrd, Ord, Hash)]
pub enum Event {
    /// A business event: this user executes this action.
    Business {
        /// The user.
        user: usize,
        /// The action.
        action: u8,
    },
    /// An admin event: addUA, this user is given this role.
    Add {
        /// The user.
        user: usize,
        /// The role.
        role: usize,
    },
    /// An admin event: rmUA, this role is taken from this user.
    Remove {
        /// The user.
        user: usize,
        /// The role.
        role: usize,
    },
    /// The workflow has finished; in no trace of Definitions 5 and 6.
    Done,
}

impl Event {
    /// Whether this is a business event.
    pub fn is_business(&self) -> bool {
        matches!(self, Event::Business { .. })
    }

    /// Whether this is an admin event.
    pub fn is_admin(&self) -> bool {
        matches!(self, Event::Add { .. } | Event::Remove { .. })
    }
}

/// Definition 4: how a trace of admin events changes a user-assignment relation.
///
/// # Panics
/// If an event is no admin event.
pub fn upd(assignment: &Assignment, events: &[Event]) -> Assignment {
    let mut changed = assignment.clone();
    for event in events {
        match event {
            Event::Add { user, role } => changed.insert((*user, *role)),
            Event::Remove { user, role } => changed.remove(&(*user, *role)),
            Event::Business { .. } | Event::Done => panic!("{event:?} is no admin event"),
        };
    }
    changed
}

#[cfg(test)]
mod tests {
    use super::*;
    use crate::policy::{Operator, Term};

    const ALICE: usize = 0;
    const BOB: usize = 1;
    const CLAIRE: usize = 2;
    const ACCOUNTANT: usize = 0;
    const CLERK: usize = 1;
    const MANAGER: usize = 2;

    #[test]
    fn example_3() {
        let accountant = || Term::Role(ACCOUNTANT);
        let two = Term::join(Operator::Apart, accountant(), accountant());
        let either = Term::join(Operator::Either, Term::Role(MANAGER), two);
        let apart = Term::join(Operator::Apart, accountant(), either);
        let term = Term::join(Operator::Together, apart, Term::plus(Term::Everyone));
        let assignment = Assignment::from([
            (ALICE, CLERK),
            (BOB, ACCOUNTANT),
            (BOB, MANAGER),
            (CLAIRE, MANAGER),
        ]);
        assert!(multiset_satisfies(&vec![2, 1, 1], &assignment, &term));
        assert!(!multiset_satisfies(&vec![1, 0, 1], &assignment, &term));
        assert!(!multiset_satisfies(&vec![1, 1, 0], &assignment, &term));
    }

    #[test]
    fn example_4() {
        let bob = || Term::set(&[BOB]);
        let tail = Term::join(Operator::Together, bob(), Term::plus(bob()));
        let term = Term::join(Operator::Together, bob(), tail);
        let assignment = Assignment::from([(BOB, CLERK)]);
        for count in 0..6 {
            let satisfied = multiset_satisfies(&vec![0, count], &assignment, &term);
            assert_eq!(satisfied, count >= 3, "{count} times Bob");
        }
    }

    /// Example 5's trace, with this user making the first action.
    fn example_trace(first: usize) -> [Event; 4] {
        [
            Event::Add { user: BOB, role: MANAGER },
            Event::Business { user: first, action: 0 },
            Event::Remove { user: BOB, role: MANAGER },
            Event::Business { user: BOB, action: 1 },
        ]
    }

    /// Examples 5 and 6: a manager, and one who is not.
    fn manager_and_another() -> Term {
        let manager = || Term::Role(MANAGER);
        Term::join(Operator::Together, manager(), Term::not(manager()))
    }

    /// How many events of Example 5's trace the process of its term accepts from this relation on,
    /// and whether the whole trace satisfies the term; this user makes the first action.
    fn followed(assignment: &Assignment, first: usize) -> (usize, bool) {
        let (term, trace) = (manager_and_another(), example_trace(first));
        let users = BTreeSet::from([ALICE, BOB]);
        let process = map_term(&term, &users, assignment, Reading::UnitFirst);
        let accepted = |events: &[Event]| !accepts(&process, events).is_empty();
        let count = (0..=trace.len()).rev().find(|count| accepted(&trace[..*count]));
        let satisfied = trace_satisfies(&trace, 2, assignment, &term);
        assert_eq!(accepted(&[&trace[..], &[Event::Done]].concat()), satisfied);
        (count.expect("no event is accepted at least"), satisfied)
    }

    /// As the paper gives them, with no other role: there Example 5's trace satisfies the term and
    /// Example 6's first action is taken. E3 refuses both actions that count on the not, since the
    /// one who acts holds no role.
    #[test]
    fn examples_5_and_6_under_e3() {
        assert_eq!(followed(&Assignment::new(), BOB), (3, false));
        assert_eq!(followed(&Assignment::new(), ALICE), (1, false));
    }

    /// With another role for those who act, all is as the paper says.
    #[test]
    fn examples_5_and_6_with_another_role() {
        let clerks = Assignment::from([(ALICE, CLERK), (BOB, CLERK)]);
        assert_eq!(followed(&clerks, BOB), (4, true));
        assert_eq!(followed(&clerks, ALICE), (3, false));
        let twice = users_of(&example_trace(BOB), 2);
        assert_eq!(twice, [0, 2]);
        let manager = upd(&clerks, &example_trace(BOB)[..1]);
        assert!(!multiset_satisfies(&twice, &manager, &manager_and_another()));
        assert!(!multiset_satisfies(&twice, &clerks, &manager_and_another()));
        assert!(multiset_satisfies(&vec![1, 1], &manager, &manager_and_another()));
    }

    /// Example 1's workflow, Example 2's configuration, and how many events of a trace are accepted by
    /// SW, whose term asks for nothing but roles, or by SSW under this term.
    fn accepted(trace: &[Event], term: &Term) -> usize {
        let (receive, prepare, approve, issue, reject) = (1, 2, 3, 4, 5);
        let edges = [
            (0, receive, 1),
            (1, prepare, 2),
            (2, approve, 3),
            (2, reject, 1),
            (3, approve, 3),
            (3, reject, 1),
            (3, issue, 4),
        ];
        let transitions = Transitions { edges: edges.into(), finals: [4].into() };
        let permissions = Permissions::from([
            (ACCOUNTANT, prepare),
            (CLERK, receive),
            (CLERK, issue),
            (MANAGER, approve),
            (MANAGER, reject),
        ]);
        let assignment = Assignment::from([(ALICE, CLERK), (BOB, ACCOUNTANT)]);
        let users = BTreeSet::from([ALICE, BOB, CLAIRE]);
        let term = map_term(term, &users, &assignment, Reading::UnitFirst);
        let process = secure_workflow(&transitions, &assignment, &permissions, term);
        let whole = |count: &usize| !accepts(&process, &trace[..*count]).is_empty();
        (0..=trace.len()).rev().find(whole).expect("no event is accepted at least")
    }

    #[test]
    fn examples_2_and_7() {
        let act = |user, action| Event::Business { user, action };
        let manager = |user| Event::Add { user, role: MANAGER };
        let begun = [act(ALICE, 1), act(BOB, 2)];
        let ended = [act(ALICE, 4), Event::Done];
        let t = [&begun[..], &[act(BOB, 3)], &ended].concat();
        let t1 = [&begun[..], &[manager(BOB), act(BOB, 3)], &ended].concat();
        let t2 = [&begun[..], &[manager(BOB), manager(CLAIRE), act(CLAIRE, 3)], &ended].concat();
        let anything = Term::plus(Term::Everyone);
        assert_eq!((accepted(&t, &anything), accepted(&t1, &anything)), (2, t1.len()));
        let accountants =
            Term::join(Operator::Apart, Term::Role(ACCOUNTANT), Term::Role(ACCOUNTANT));
        let other = Term::join(Operator::Either, Term::Role(MANAGER), accountants);
        let signed = Term::join(Operator::Apart, Term::Role(ACCOUNTANT), other);
        let policy = Term::join(Operator::Together, signed, anything);
        assert_eq!((accepted(&t1, &policy), accepted(&t2, &policy)), (t1.len() - 1, t2.len()));
    }

    #[test]
    fn fin_takes_admin_events_and_done_and_then_stops() {
        let add = Event::Add { user: 0, role: 0 };
        assert_eq!(next(&Process::Fin, add), BTreeSet::from([Process::Fin]));
        assert_eq!(next(&Process::Fin, Event::Done), BTreeSet::from([Process::Stop]));
        assert!(next(&Process::Fin, Event::Business { user: 0, action: 0 }).is_empty());
        assert!(next(&Process::Stop, Event::Done).is_empty());
        assert!(next(&Process::Stop, add).is_empty());
    }

    #[test]
    fn upd_adds_and_removes() {
        let start = Assignment::from([(0, 0)]);
        let events = [Event::Add { user: 1, role: 1 }, Event::Remove { user: 0, role: 0 }];
        assert_eq!(upd(&start, &events), Assignment::from([(1, 1)]));
    }
}
