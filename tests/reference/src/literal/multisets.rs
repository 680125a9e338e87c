//! Definition 3: multiset satisfaction, with rule (4) as 02's E3 has it.
//!
//! Each arm is one rule read from its conclusion to its premises; the relation is the smallest one
//! closed under the rules, so a multiset satisfies a term only if some rule ends in that.

use super::Assignment;
use crate::policy::{Operator, Term};

/// A multiset of users: entry u is how often user u occurs.
pub type Multiset = Vec<usize>;

/// The user of a multiset that holds exactly one user once.
fn single(multiset: &Multiset) -> Option<usize> {
    let total: usize = multiset.iter().sum();
    (total == 1).then(|| multiset.iter().position(|count| *count == 1))?
}

/// The multiset {u}, over as many users as the other multiset.
fn singleton(user: usize, like: &Multiset) -> Multiset {
    (0..like.len()).map(|other| usize::from(other == user)).collect()
}

/// Every pair of multisets whose sum is this one: the counts add.
fn sums(multiset: &Multiset) -> Vec<(Multiset, Multiset)> {
    let mut pairs = vec![(vec![], vec![])];
    for count in multiset {
        let mut longer = Vec::new();
        for (first, second) in &pairs {
            for share in 0..=*count {
                longer.push((
                    [&first[..], &[share]].concat(),
                    [&second[..], &[count - share]].concat(),
                ));
            }
        }
        pairs = longer;
    }
    pairs
}

/// Whether the intersection of two multisets is empty: the smaller count is 0 for each user.
fn disjoint(first: &Multiset, second: &Multiset) -> bool {
    first.iter().zip(second).all(|(one, other)| one.min(other) == &0)
}

/// Whether the user holds some role.
fn holds_some_role(assignment: &Assignment, user: usize) -> bool {
    assignment.iter().any(|(holder, _)| *holder == user)
}

/// Rules (1) to (4): the atomic terms and not, for the multiset {u}.
fn user_satisfies(user: usize, like: &Multiset, assignment: &Assignment, term: &Term) -> bool {
    match term {
        Term::Everyone => holds_some_role(assignment, user),
        Term::Role(role) => assignment.contains(&(user, *role)),
        Term::Set(users) => users.contains(&user) && holds_some_role(assignment, user),
        // 02, E3: "a person meets not exactly if she holds a role and does not meet the inner term".
        // The paper's rule has the second premise alone: {u} does not satisfy the inner term.
        Term::Not(inner) => {
            holds_some_role(assignment, user)
                && !multiset_satisfies(&singleton(user, like), assignment, inner)
        }
        Term::Plus(_) | Term::Join(_, _, _) => false,
    }
}

/// Rules (5) and (6): one user who satisfies the inner term; or such a user and a multiset that
/// satisfies the plus.
fn plus_satisfied(multiset: &Multiset, assignment: &Assignment, inner: &Term, plus: &Term) -> bool {
    let satisfies = |user: usize| multiset_satisfies(&singleton(user, multiset), assignment, inner);
    let rule_5 = single(multiset).is_some_and(satisfies);
    let rule_6 = |user: usize| {
        let mut rest = multiset.clone();
        rest[user] -= 1;
        satisfies(user) && multiset_satisfies(&rest, assignment, plus)
    };
    rule_5 || (0..multiset.len()).filter(|user| multiset[*user] > 0).any(rule_6)
}

/// Definition 3: whether a multiset of users satisfies a term under a user-assignment relation.
pub fn multiset_satisfies(multiset: &Multiset, assignment: &Assignment, term: &Term) -> bool {
    let side = |multiset: &Multiset, term: &Term| multiset_satisfies(multiset, assignment, term);
    match term {
        // (1), (2), (3), (4)
        Term::Everyone | Term::Role(_) | Term::Set(_) | Term::Not(_) => {
            single(multiset).is_some_and(|user| user_satisfies(user, multiset, assignment, term))
        }
        // (5), (6)
        Term::Plus(inner) => plus_satisfied(multiset, assignment, inner, term),
        // (7), (8)
        Term::Join(Operator::Either, left, right) => side(multiset, left) || side(multiset, right),
        // (9)
        Term::Join(Operator::Both, left, right) => side(multiset, left) && side(multiset, right),
        // (10)
        Term::Join(Operator::Together, left, right) => {
            sums(multiset).iter().any(|(one, other)| side(one, left) && side(other, right))
        }
        // (11)
        Term::Join(Operator::Apart, left, right) => sums(multiset)
            .iter()
            .any(|(one, other)| disjoint(one, other) && side(one, left) && side(other, right)),
    }
}
