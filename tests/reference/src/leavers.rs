//! Tests of 02's E3, "A leaver must not pass as not Anna": who holds no role meets no unit term, so
//! that each action of such a user is refused; what was noted before the roles were withdrawn stays.

use std::collections::BTreeSet;

use crate::examples::{action, grant, revoke, CLOSE};
use crate::literal::{multiset_satisfies, Assignment};
use crate::monitor::{Monitor, Taken};
use crate::multiset::multiset;
use crate::policy::{meets, met_bits, ones, Operator, Term};
use crate::workspace::WORDS;

/// Every unit term of exactly this many words over two users and two roles.
fn units(words: usize) -> Vec<Term> {
    if words == 1 {
        let sets = [&[0][..], &[1], &[0, 1]].map(Term::set);
        return [vec![Term::Everyone, Term::Role(0), Term::Role(1)], sets.to_vec()].concat();
    }
    let mut found: Vec<Term> = units(words - 1).into_iter().map(Term::not).collect();
    for left in 1..words - 1 {
        for (first, second) in pairs(&units(left), &units(words - 1 - left)) {
            found.push(Term::join(Operator::Either, first.clone(), second.clone()));
            found.push(Term::join(Operator::Both, first, second));
        }
    }
    found
}

/// Each of the first terms with each of the second.
fn pairs(first: &[Term], second: &[Term]) -> Vec<(Term, Term)> {
    let with = |one: &Term| second.iter().map(|other| (one.clone(), other.clone())).collect();
    first.iter().flat_map(|one| -> Vec<_> { with(one) }).collect()
}

/// Every unit term of at most so many words.
fn units_up_to(words: usize) -> Vec<Term> {
    (1..=words).flat_map(units).collect()
}

/// Policies that ask for a unit term once, again and again, and twice with nothing in common.
fn policies(unit: &Term) -> [Term; 3] {
    let twice = Term::join(Operator::Apart, unit.clone(), Term::plus(unit.clone()));
    [unit.clone(), Term::plus(unit.clone()), twice]
}

/// A monitor of these users and two roles.
fn opened(policy: &Term, user_roles: &[u16]) -> Monitor<Taken> {
    Monitor::open(user_roles.len(), 2, &policy.words(), user_roles).expect("it opens")
}

/// The numbers of these events.
fn codes(monitor: &mut Monitor<Taken>, events: &[u32]) -> Vec<u32> {
    events.iter().map(|word| monitor.step(*word).code).collect()
}

#[test]
fn who_holds_no_role_meets_no_unit_term() {
    let units = units_up_to(5);
    assert_eq!(units.len(), 2478);
    for (unit, user) in units.iter().flat_map(|unit| [0, 1].map(|user| (unit, user))) {
        assert!(!meets(unit, user, &BTreeSet::new()), "{unit:?}");
        assert_eq!(met_bits(unit, user, &BTreeSet::new()), 0, "{unit:?}");
        let (alone, other) = (vec![1 - user, user], Assignment::from([(1 - user, 0)]));
        assert!(!multiset_satisfies(&alone, &other, unit), "{unit:?}");
    }
}

#[test]
fn with_a_role_not_is_the_opposite() {
    for unit in units_up_to(4) {
        let (not, twice) = (Term::not(unit.clone()), Term::not(Term::not(unit.clone())));
        for (user, row) in [0, 1].into_iter().flat_map(|user| [1, 2, 3].map(|row| (user, row))) {
            let held = ones(row);
            assert_ne!(meets(&not, user, &held), meets(&unit, user, &held), "{unit:?}");
            assert_eq!(meets(&twice, user, &held), meets(&unit, user, &held), "{unit:?}");
        }
    }
}

#[test]
fn not_over_a_set_and_over_not() {
    let (none, some) = (BTreeSet::new(), BTreeSet::from([1]));
    let not_anna = Term::not(Term::set(&[0]));
    let met = |unit: &Term, user| (meets(unit, user, &none), meets(unit, user, &some));
    assert_eq!(met(&not_anna, 0), (false, false), "Anna");
    assert_eq!(met(&not_anna, 1), (false, true), "another");
    assert_eq!(met(&Term::not(not_anna), 0), (false, true), "not not Anna");
    assert_eq!(met(&Term::not(Term::Everyone), 0), (false, false));
    assert_eq!(met(&Term::not(Term::not(Term::Everyone)), 0), (false, true));
}

#[test]
fn a_leaver_is_refused_until_a_role_is_given_anew() {
    let policy = Term::plus(Term::not(Term::set(&[0])));
    let mut monitor = opened(&policy, &[3, 3]);
    let leaves = [action(1), revoke(1, 0), action(1), revoke(1, 1), action(1)];
    assert_eq!(codes(&mut monitor, &leaves), [0, 0, 0, 0, 9]);
    assert_eq!((monitor.mask(0), monitor.taken().len()), (0, 2));
    let anna_leaves = [action(0), revoke(0, 0), revoke(0, 1), action(0)];
    assert_eq!(codes(&mut monitor, &anna_leaves), [9, 0, 0, 9]);
    assert_eq!(codes(&mut monitor, &[grant(1, 0), action(1), CLOSE]), [0, 0, 0]);
}

#[test]
fn what_a_leaver_did_before_stays() {
    let policy = Term::join(Operator::Together, Term::not(Term::Role(0)), Term::Role(0));
    let mut monitor = opened(&policy, &[1, 2]);
    assert_eq!(codes(&mut monitor, &[action(1), revoke(1, 1), CLOSE, action(1)]), [0, 0, 11, 9]);
    let noted = Taken { user: 1, held: BTreeSet::from([1]) };
    assert_eq!((monitor.taken(), monitor.mask(0)), (&[noted][..], 0b01));
    assert_eq!(codes(&mut monitor, &[action(0), revoke(0, 0), CLOSE]), [0, 0, 0]);
}

#[test]
fn the_mask_has_no_bit_for_who_holds_no_role() {
    for policy in units_up_to(4).iter().flat_map(policies) {
        let mut monitor = opened(&policy, &[0, 1, 0, 2]);
        let mask = monitor.mask(0);
        assert_eq!(mask & 0b0101, 0, "{policy:?}");
        for user in 0..4 {
            let code = if mask >> user & 1 == 1 { 0 } else { 9 };
            assert_eq!(monitor.clone().step(action(user)).code, code, "{policy:?}");
        }
        codes(&mut monitor, &[action(1), revoke(1, 0)]);
        assert_eq!(monitor.mask(0) & 0b0111, 0, "{policy:?}");
    }
}

/// Whether a multiset of two users satisfies a policy; user 0 holds role 0, user 1 these roles.
fn satisfied(policy: &Term, row: u16, counts: [u8; 2]) -> bool {
    let mut all = [0; 16];
    all[..2].copy_from_slice(&counts);
    let answer = multiset(2, 2, &policy.words(), &[1, row], &all, &mut vec![0; WORDS]);
    answer.expect("nothing is out of range")
}

#[test]
fn a_multiset_with_who_holds_no_role_satisfies_nothing() {
    let mut with_a_role = 0;
    for policy in units_up_to(3).iter().flat_map(policies) {
        for counts in [[0, 1], [1, 1], [2, 1]] {
            assert!(!satisfied(&policy, 0, counts), "{policy:?} {counts:?}");
            with_a_role += usize::from(satisfied(&policy, 2, counts));
        }
    }
    assert!(with_a_role > 100, "{with_a_role}");
}
