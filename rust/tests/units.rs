//! Who meets a unit term: who may begin under it, against document 01's rules with document 02's not,
//! for small terms.

use oskhrein::{Monitor, Term, Users, Workspace};

/// Users 0 to 3 and users 4 to 7 hold none, one, the other and both of two roles. The first four are
/// the set of the terms below.
const ROWS: [u16; 8] = [0b00, 0b01, 0b10, 0b11, 0b00, 0b01, 0b10, 0b11];

/// A unit term, and who meets it.
type Unit = (Term, Users);

/// Those users for whom this holds.
fn users(holds: impl Fn(u8) -> bool) -> Users {
    Users::from_bits((0..8).filter(|user| holds(*user)).map(|user| 1 << user).sum())
}

/// Whether a user holds some role.
fn any(user: u8) -> bool {
    ROWS[usize::from(user)] != 0
}

/// Whether a user holds a role.
fn has(user: u8, role: u8) -> bool {
    ROWS[usize::from(user)] >> role & 1 == 1
}

/// The terms of one word.
fn leaves() -> Vec<Unit> {
    let role = |role| (Term::role(role).expect("a term"), users(|user| has(user, role)));
    let set = Term::set(&[0, 1, 2, 3]).expect("a term");
    vec![
        (Term::everyone(), users(any)),
        role(0),
        role(1),
        (set, users(|user| any(user) && user < 4)),
    ]
}

/// Not over a term.
fn not((term, met): Unit) -> Unit {
    let others = users(|user| any(user) && !met.contains(user));
    (Term::not(term).expect("a term"), others)
}

/// The terms of one operator over these, the right side of either and both a term of one word.
fn over(terms: &[Unit]) -> Vec<Unit> {
    let mut made: Vec<Unit> = terms.iter().copied().map(not).collect();
    for (left, met_left) in terms.iter().copied() {
        for (right, met_right) in leaves() {
            let one = users(|user| met_left.contains(user) || met_right.contains(user));
            let both = users(|user| met_left.contains(user) && met_right.contains(user));
            made.push((Term::either(left, right).expect("a term"), one));
            made.push((Term::both(left, right).expect("a term"), both));
        }
    }
    made
}

/// All terms of at most three operators so.
fn terms() -> Vec<Unit> {
    let mut all = leaves();
    let mut last = all.clone();
    for _ in 0..3 {
        last = over(&last);
        all.extend(&last);
    }
    all
}

/// Who may begin under a term.
fn begins(term: Term) -> Users {
    let monitor = Monitor::open(8, 2, term.words(), &ROWS).expect("it opens");
    monitor.enabled(0, &mut Workspace::new()).expect("it is well formed")
}

#[test]
fn who_meets_a_term_may_begin() {
    for (term, met) in terms() {
        assert_eq!(begins(term), met, "{:08x?}", term.words());
    }
}

#[test]
fn nobody_without_a_role_may_begin() {
    for (term, _) in terms() {
        let without = begins(term).iter().find(|user| !any(*user));
        assert_eq!(without, None, "{:08x?}", term.words());
    }
}

#[test]
fn not_twice_is_met_by_the_same_users() {
    for unit in terms() {
        let (twice, met) = not(not(unit));
        assert_eq!((begins(twice), met), (unit.1, unit.1), "{:08x?}", twice.words());
    }
}

#[test]
fn nobody_meets_not_everyone() {
    let nobody = Term::not(Term::everyone()).expect("a term");
    assert!(begins(nobody).is_empty());
}
