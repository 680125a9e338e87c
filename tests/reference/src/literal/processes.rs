//! Definition 7: terms as processes, and processes as labelled transitions; and the processes of a
//! workflow, of RBAC and of a workflow that both secure (sections 3.1, 3.2 and 5.3).
//!
//! The damaged rule for both is read as the two sides in parallel, synchronised on every event,
//! over the same users; apart is a choice over all ways to part the users in two.

use std::collections::BTreeSet;

use super::{multiset_satisfies, upd, Assignment, Event};
use crate::policy::{Operator, Term};

/// The events on which two parallel processes synchronise.
#[derive(Clone, Copy, Debug, PartialEq, Eq, PartialOrd, Ord, Hash)]
pub enum Synchronised {
    /// On every event.
    Everything,
    /// On done and on admin events.
    DoneAndAdmin,
    /// On business events.
    Business,
}

impl Synchronised {
    /// Whether both processes have to engage in an event together.
    fn holds(self, event: Event) -> bool {
        match self {
            Synchronised::Everything => true,
            Synchronised::DoneAndAdmin => !event.is_business(),
            Synchronised::Business => event.is_business(),
        }
    }
}

/// A permission-assignment relation: the pairs of a role and an action (Definition 1).
pub type Permissions = BTreeSet<(usize, u8)>;

/// The labelled transition system of a workflow (section 3.1, Fig. 1b), over all users: edges from a
/// state by an action to a state, and the states in which it may be done.
#[derive(Clone, Debug, PartialEq, Eq, PartialOrd, Ord, Hash)]
pub struct Transitions {
    /// The edges.
    pub edges: BTreeSet<(u8, u8, u8)>,
    /// Where it may be done.
    pub finals: BTreeSet<u8>,
}

/// A state of a process.
#[derive(Clone, Debug, PartialEq, Eq, PartialOrd, Ord, Hash)]
pub enum Process {
    /// Engages in nothing.
    Stop,
    /// Engages in any admin events, then in done, then stops.
    Fin,
    /// Rule (1): waits for one business event by one of the users who satisfies the unit term.
    Unit {
        /// The unit term.
        term: Term,
        /// The users that may act.
        users: BTreeSet<usize>,
        /// The user-assignment relation now.
        assignment: Assignment,
    },
    /// Rule (2): waits for such a business event, and afterwards for more of them or FIN.
    Plus {
        /// The inner unit term.
        inner: Term,
        /// The users that may act.
        users: BTreeSet<usize>,
        /// The user-assignment relation now.
        assignment: Assignment,
    },
    /// Behaves like one of these; the first event decides.
    Choice(Vec<Process>),
    /// Two processes side by side.
    Parallel(Synchronised, Box<Process>, Box<Process>),
    /// W: a workflow in a state.
    Workflow {
        /// Its transitions.
        transitions: Transitions,
        /// The state.
        state: u8,
    },
    /// RBAC(UA, PA): engages in the business events that a role gives and in all admin events, and
    /// never ends.
    Rbac {
        /// The user-assignment relation now.
        assignment: Assignment,
        /// The permission-assignment relation.
        permissions: Permissions,
    },
}

/// SSW: W and RBAC synchronised on business events, and that with the process of a term on every event
/// (section 5.3).
pub fn secure_workflow(
    transitions: &Transitions,
    assignment: &Assignment,
    permissions: &Permissions,
    term: Process,
) -> Process {
    let workflow = Process::Workflow { transitions: transitions.clone(), state: 0 };
    let (assignment, permissions) = (assignment.clone(), permissions.clone());
    let rbac = Process::Rbac { assignment, permissions };
    let secure = Process::Parallel(Synchronised::Business, Box::new(workflow), Box::new(rbac));
    Process::Parallel(Synchronised::Everything, Box::new(secure), Box::new(term))
}

/// How a unit term with either or both at its head is mapped.
#[derive(Clone, Copy, Debug, PartialEq, Eq)]
pub enum Reading {
    /// By rule (1), as any unit term.
    UnitFirst,
    /// By rules (3) and (4), as any either or both.
    OperatorsFirst,
}

/// Definition 7: the process of a term over these users under this user-assignment relation.
///
/// # Panics
/// If a not stands over a term that is no unit term.
pub fn map_term(
    term: &Term,
    users: &BTreeSet<usize>,
    assignment: &Assignment,
    reading: Reading,
) -> Process {
    let (all, relation) = (users.clone(), assignment.clone());
    match term {
        // (1)
        _ if term.is_unit() && by_rule_1(term, reading) => {
            Process::Unit { term: term.clone(), users: all, assignment: relation }
        }
        // (2)
        Term::Plus(inner) => {
            Process::Plus { inner: (**inner).clone(), users: all, assignment: relation }
        }
        Term::Join(operator, left, right) => {
            let left = |users: &BTreeSet<usize>| map_term(left, users, assignment, reading);
            let right = |users: &BTreeSet<usize>| map_term(right, users, assignment, reading);
            map_join(*operator, users, left, right)
        }
        _ => panic!("{term:?} is no term of the algebra"),
    }
}

/// Rules (3) to (6): the process of two sides, each given as a function of its users.
fn map_join(
    operator: Operator,
    users: &BTreeSet<usize>,
    left: impl Fn(&BTreeSet<usize>) -> Process,
    right: impl Fn(&BTreeSet<usize>) -> Process,
) -> Process {
    let beside = |synchronised, one: &BTreeSet<usize>, other: &BTreeSet<usize>| {
        Process::Parallel(synchronised, Box::new(left(one)), Box::new(right(other)))
    };
    match operator {
        // (3)
        Operator::Either => Process::Choice(vec![left(users), right(users)]),
        // (4)
        Operator::Both => beside(Synchronised::Everything, users, users),
        // (5)
        Operator::Together => beside(Synchronised::DoneAndAdmin, users, users),
        // (6)
        Operator::Apart => {
            let parted = partings(users).into_iter();
            let sides = parted.map(|(one, other)| beside(Synchronised::DoneAndAdmin, &one, &other));
            Process::Choice(sides.collect())
        }
    }
}

/// Whether a unit term is mapped by rule (1).
fn by_rule_1(unit: &Term, reading: Reading) -> bool {
    reading == Reading::UnitFirst || !matches!(unit, Term::Join(_, _, _))
}

/// All ways to part the users in two, empty parts included.
fn partings(users: &BTreeSet<usize>) -> Vec<(BTreeSet<usize>, BTreeSet<usize>)> {
    let mut found = vec![(BTreeSet::new(), BTreeSet::new())];
    for user in users {
        let mut larger = Vec::new();
        for (one, other) in found {
            let (mut with_one, mut with_other) = (one.clone(), other.clone());
            with_one.insert(*user);
            with_other.insert(*user);
            larger.push((with_one, other));
            larger.push((one, with_other));
        }
        found = larger;
    }
    found
}

/// The set of states that a process may reach by one event.
pub fn next(process: &Process, event: Event) -> BTreeSet<Process> {
    match process {
        Process::Stop => BTreeSet::new(),
        Process::Fin => match event {
            Event::Done => BTreeSet::from([Process::Stop]),
            Event::Add { .. } | Event::Remove { .. } => BTreeSet::from([Process::Fin]),
            Event::Business { .. } => BTreeSet::new(),
        },
        Process::Unit { .. } | Process::Plus { .. } => waiting(process, event),
        Process::Choice(choices) => choices.iter().flat_map(|choice| next(choice, event)).collect(),
        Process::Parallel(synchronised, left, right) => beside(*synchronised, left, right, event),
        Process::Workflow { transitions, state } => workflow_next(transitions, *state, event),
        Process::Rbac { assignment, permissions } => rbac_next(assignment, permissions, event),
    }
}

/// The transitions of W: whoever acts takes an edge, and done ends it in a final state. It has no admin
/// events.
fn workflow_next(transitions: &Transitions, state: u8, event: Event) -> BTreeSet<Process> {
    let Transitions { edges, finals } = transitions;
    match event {
        Event::Business { action, .. } => {
            let leaving = edges.iter().filter(|(from, by, _)| (*from, *by) == (state, action));
            let to = |to: &u8| Process::Workflow { transitions: transitions.clone(), state: *to };
            leaving.map(|(_, _, next)| to(next)).collect()
        }
        Event::Done if finals.contains(&state) => BTreeSet::from([Process::Stop]),
        _ => BTreeSet::new(),
    }
}

/// The transitions of RBAC. It has no done.
fn rbac_next(
    assignment: &Assignment,
    permissions: &Permissions,
    event: Event,
) -> BTreeSet<Process> {
    let rbac = |assignment: Assignment| {
        BTreeSet::from([Process::Rbac { assignment, permissions: permissions.clone() }])
    };
    match event {
        Event::Business { user, action } => {
            let gives = |(holder, role): &(usize, usize)| {
                *holder == user && permissions.contains(&(*role, action))
            };
            if assignment.iter().any(gives) {
                rbac(assignment.clone())
            } else {
                BTreeSet::new()
            }
        }
        Event::Add { .. } | Event::Remove { .. } => rbac(upd(assignment, &[event])),
        Event::Done => BTreeSet::new(),
    }
}

/// The transitions of rules (1) and (2): a business event by an admitted user, or an admin event
/// that changes the relation.
fn waiting(process: &Process, event: Event) -> BTreeSet<Process> {
    let (term, users, assignment) = match process {
        Process::Unit { term, users, assignment } => (term, users, assignment),
        Process::Plus { inner, users, assignment } => (inner, users, assignment),
        _ => panic!("{process:?} does not wait for users"),
    };
    match event {
        Event::Business { user, .. } if users.contains(&user) => {
            let mut multiset = vec![0; user + 1];
            multiset[user] = 1;
            if !multiset_satisfies(&multiset, assignment, term) {
                return BTreeSet::new();
            }
            BTreeSet::from([after_business(process)])
        }
        Event::Business { .. } | Event::Done => BTreeSet::new(),
        Event::Add { .. } | Event::Remove { .. } => {
            let (users, assignment) = (users.clone(), upd(assignment, &[event]));
            BTreeSet::from([match process {
                Process::Unit { term, .. } => {
                    Process::Unit { term: term.clone(), users, assignment }
                }
                _ => Process::Plus { inner: term.clone(), users, assignment },
            }])
        }
    }
}

/// What a process behaves like after its business event: FIN, or for plus also itself.
fn after_business(process: &Process) -> Process {
    match process {
        Process::Plus { .. } => Process::Choice(vec![Process::Fin, process.clone()]),
        _ => Process::Fin,
    }
}

/// The transitions of two processes in parallel.
fn beside(
    synchronised: Synchronised,
    left: &Process,
    right: &Process,
    event: Event,
) -> BTreeSet<Process> {
    let pair = |left: &Process, right: &Process| {
        Process::Parallel(synchronised, Box::new(left.clone()), Box::new(right.clone()))
    };
    let (lefts, rights) = (next(left, event), next(right, event));
    if !synchronised.holds(event) {
        let left_moves = lefts.iter().map(|moved| pair(moved, right));
        let right_moves = rights.iter().map(|moved| pair(left, moved));
        return left_moves.chain(right_moves).collect();
    }
    lefts.iter().flat_map(|one| rights.iter().map(move |other| pair(one, other))).collect()
}

/// The states that a process may be in after a trace; empty if it does not accept the trace.
pub fn accepts(process: &Process, trace: &[Event]) -> BTreeSet<Process> {
    let mut states = BTreeSet::from([process.clone()]);
    for event in trace {
        states = states.iter().flat_map(|state| next(state, *event)).collect();
    }
    states
}
