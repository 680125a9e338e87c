//! Definitions 5 and 6: synchronised interleaving and trace satisfaction.

use super::{multiset_satisfies, upd, Assignment, Event, Multiset};
use crate::policy::{Operator, Term};

/// Definition 5, case by case: whether the first trace is a synchronised interleaving of the two
/// others.
pub fn si(whole: &[Event], first: &[Event], second: &[Event]) -> bool {
    let Some((event, rest)) = whole.split_first() else {
        return first.is_empty() && second.is_empty();
    };
    let in_first = first.first() == Some(event);
    let in_second = second.first() == Some(event);
    match (event.is_admin(), in_first, in_second) {
        (true, true, true) => si(rest, &first[1..], &second[1..]),
        (true, _, _) => false,
        (false, true, true) => si(rest, &first[1..], second) || si(rest, first, &second[1..]),
        (false, true, false) => si(rest, &first[1..], second),
        (false, false, true) => si(rest, first, &second[1..]),
        (false, false, false) => false,
    }
}

/// Every trace that arises from this one by leaving events out, each once.
fn subtraces(trace: &[Event]) -> Vec<Vec<Event>> {
    let mut found = vec![vec![]];
    for event in trace {
        let longer: Vec<Vec<Event>> =
            found.iter().map(|shorter| [&shorter[..], &[*event]].concat()).collect();
        found.extend(longer);
    }
    found.sort();
    found.dedup();
    found
}

/// Every pair of traces of which this one is a synchronised interleaving.
fn interleaved(trace: &[Event]) -> Vec<(Vec<Event>, Vec<Event>)> {
    let candidates = subtraces(trace);
    let mut pairs = Vec::new();
    for first in &candidates {
        for second in &candidates {
            if si(trace, first, second) {
                pairs.push((first.clone(), second.clone()));
            }
        }
    }
    pairs
}

/// The multiset of users of a trace, over this many users.
pub fn users_of(trace: &[Event], users: usize) -> Multiset {
    let mut counts = vec![0; users];
    for event in trace {
        if let Event::Business { user, .. } = event {
            counts[*user] += 1;
        }
    }
    counts
}

/// Whether no user has business events in both traces.
fn disjoint_users(first: &[Event], second: &[Event], users: usize) -> bool {
    let pairs = users_of(first, users).into_iter().zip(users_of(second, users));
    pairs.into_iter().all(|(one, other)| one.min(other) == 0)
}

/// Definition 6: whether a trace over this many users satisfies a term under a user-assignment
/// relation. A trace satisfies a term only if some rule ends in that.
pub fn trace_satisfies(
    trace: &[Event],
    users: usize,
    assignment: &Assignment,
    term: &Term,
) -> bool {
    rule_1(trace, users, assignment, term)
        || rule_2(trace, users, assignment, term)
        || rules_3_and_4(trace, users, assignment, term)
        || operator_rules(trace, users, assignment, term)
}

/// Rule (1): one business event by a user who satisfies a unit term.
fn rule_1(trace: &[Event], users: usize, assignment: &Assignment, term: &Term) -> bool {
    let [Event::Business { .. }] = trace else {
        return false;
    };
    term.is_unit() && multiset_satisfies(&users_of(trace, users), assignment, term)
}

/// Rule (2): an admin event after a trace that satisfies the term.
fn rule_2(trace: &[Event], users: usize, assignment: &Assignment, term: &Term) -> bool {
    match trace.split_last() {
        Some((event, before)) if event.is_admin() => {
            trace_satisfies(before, users, assignment, term)
        }
        _ => false,
    }
}

/// Rules (3) and (4): an admin event before a trace that satisfies the term under the changed
/// relation.
fn rules_3_and_4(trace: &[Event], users: usize, assignment: &Assignment, term: &Term) -> bool {
    match trace.split_first() {
        Some((event, after)) if event.is_admin() => {
            trace_satisfies(after, users, &upd(assignment, &[*event]), term)
        }
        _ => false,
    }
}

/// Rules (5) to (11): plus, either, both, together, apart.
fn operator_rules(trace: &[Event], users: usize, assignment: &Assignment, term: &Term) -> bool {
    let side = |trace: &[Event], term: &Term| trace_satisfies(trace, users, assignment, term);
    match term {
        Term::Everyone | Term::Role(_) | Term::Set(_) | Term::Not(_) => false,
        Term::Plus(inner) => match trace {
            // (5)
            [event] if event.is_business() => side(trace, inner),
            // (6)
            [event, rest @ ..] if event.is_business() => side(&[*event], inner) && side(rest, term),
            _ => false,
        },
        // (7), (8)
        Term::Join(Operator::Either, left, right) => side(trace, left) || side(trace, right),
        // (9)
        Term::Join(Operator::Both, left, right) => side(trace, left) && side(trace, right),
        // (10)
        Term::Join(Operator::Together, left, right) => {
            interleaved(trace).iter().any(|(one, other)| side(one, left) && side(other, right))
        }
        // (11)
        Term::Join(Operator::Apart, left, right) => {
            interleaved(trace).iter().any(|(one, other)| {
                disjoint_users(one, other, users) && side(one, left) && side(other, right)
            })
        }
    }
}

#[cfg(test)]
mod tests {
    use super::*;

    /// The example that follows Definition 5.
    #[test]
    fn the_papers_interleaving_holds() {
        let b = |action| Event::Business { user: 0, action };
        let a = |role| Event::Add { user: 0, role };
        let whole = [b(1), b(2), b(3), a(1), b(4), b(4), a(2), b(5), a(3), b(6), a(4)];
        let first = [b(1), b(3), a(1), b(4), a(2), a(3), b(6), a(4)];
        let second = [b(2), a(1), b(4), a(2), b(5), a(3), a(4)];
        assert!(si(&whole, &first, &second));
        assert!(!si(&whole, &first, &second[1..]));
        assert!(!si(&whole, &first[..7], &second));
    }
}
