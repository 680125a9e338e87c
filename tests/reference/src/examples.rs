//! 01's listing L, its twelve settled examples, P6 and P7 as 02's E3 has them, its four tempting
//! mistakes, and the payment workflow of document 004, as checks.

use crate::casefile::{judge, read_case, run, Case};
use crate::monitor::{Monitor, Taken};
use crate::multiset::multiset;
use crate::policy::{normal_form, read_policy, Operator, Term};
use crate::secure::Given;
use crate::workspace;

/// A check with a name and whether it passed.
pub type Check = (&'static str, bool);

/// Policy F, Example 3 of document 004.
pub const POLICY_F: [u32; 10] = [
    0x08000000, 0x09000000, 0x02000000, 0x06000000, 0x02000002, 0x09000000, 0x02000000, 0x02000000,
    0x05000000, 0x01000000,
];

/// Listing L, byte for byte.
#[rustfmt::skip]
pub const LISTING_L: [u8; 96] = [
    12, 0, 40, 0, 52, 0, 8, 0, 60, 0, 36, 0,
    0, 0, 0, 8, 0, 0, 0, 9, 0, 0, 0, 2, 0, 0, 0, 6, 2, 0, 0, 2,
    0, 0, 0, 9, 0, 0, 0, 2, 0, 0, 0, 2, 0, 0, 0, 5, 0, 0, 0, 1,
    3, 3, 2, 0, 1, 0, 0, 0,
    1, 0, 0, 1, 2, 1, 0, 1, 2, 1, 0, 2, 2, 2, 0, 2, 0, 0, 0, 4,
    3, 2, 0, 1, 4, 0, 0, 1, 0, 0, 0, 4, 4, 0, 0, 1,
];

/// What the judge prints for listing L.
pub const LISTING_L_OUTPUT: &str =
    "1 0 o\n2 0 o\n3 0 o\n4 0 o\n5 11 o\n6 0 c\n7 0 c\n8 0 d\n9 10 d\ntaken 4\n";

/// The word of an action by this user.
pub fn action(user: u32) -> u32 {
    1 << 24 | user << 8
}

/// The word of the action with this number by this user.
pub fn numbered(user: u32, number: u8) -> u32 {
    action(user) | u32::from(number)
}

/// The word that gives a user a role.
pub fn grant(user: u32, role: u32) -> u32 {
    2 << 24 | user << 8 | role
}

/// The word that takes a role from a user.
pub fn revoke(user: u32, role: u32) -> u32 {
    3 << 24 | user << 8 | role
}

/// The word of a close.
pub const CLOSE: u32 = 4 << 24;

/// Runs a policy with these users' roles; for each event its number and the status after it.
fn answers(roles: u8, term: &Term, user_roles: &[u16], events: &[u32]) -> Vec<(u32, char)> {
    let case = Case {
        users: user_roles.len() as u8,
        roles,
        policy: term.words(),
        user_roles: user_roles.to_vec(),
        events: events.to_vec(),
        given: None,
    };
    run(&case).map(|report| report.answers).unwrap_or_default()
}

/// The numbers alone.
fn codes(answers: &[(u32, char)]) -> Vec<u32> {
    answers.iter().map(|(code, _)| *code).collect()
}

/// Policy F as a term.
fn policy_f() -> Term {
    crate::policy::read_term(3, 3, &POLICY_F).expect("policy F is accepted")
}

/// The multiset test with policy F and grants 2, 5, 4.
fn multiset_f(counts: [u8; 3]) -> Result<bool, u32> {
    let mut all = [0; 16];
    all[..3].copy_from_slice(&counts);
    multiset(3, 3, &POLICY_F, &[2, 5, 4], &all, &mut vec![0; workspace::WORDS])
}

/// P1 to P5.
fn settled_on_f() -> Vec<Check> {
    let case = read_case(&LISTING_L).expect("listing L is well formed");
    let report = run(&case).expect("listing L opens");
    let expected: Vec<u32> = vec![0, 0, 0, 0, 11, 0, 0, 0, 10];
    let letters: String = report.answers.iter().map(|(_, letter)| *letter).collect();
    let p1 = codes(&report.answers) == expected && letters == "oooooccdd" && report.taken == 4;
    vec![
        ("P1", p1),
        ("P2", multiset_f([2, 1, 1]) == Ok(true)),
        ("P3", multiset_f([1, 0, 1]) == Ok(false)),
        ("P4", multiset_f([1, 1, 0]) == Ok(false)),
        ("P5", answers(3, &policy_f(), &[2, 1, 0], &[action(2)])[0].0 == 9),
    ]
}

/// The policy of P6 and P7.
fn manager_and_not() -> Term {
    Term::join(Operator::Together, Term::Role(2), Term::not(Term::Role(2)))
}

/// The events of P6 and P7, with this user making the first action.
fn manager_then_not(first: u32) -> [u32; 5] {
    [grant(1, 2), action(first), revoke(1, 2), action(1), CLOSE]
}

/// The roles at the opening with which 01's first mistake shows. P6 does not tell it: user 1 holds no
/// role at her last action, which is refused either way. Here she keeps another one.
const KEEPS_A_ROLE: [u16; 3] = [0, 1, 0];

/// The numbers of these events under the policy of P6 and P7.
fn manager_codes(user_roles: &[u16], events: &[u32]) -> Vec<u32> {
    codes(&answers(3, &manager_and_not(), user_roles, events))
}

/// P8: the statuses after each of four actions by user 1.
fn three_or_more() -> String {
    let s = Term::set(&[1]);
    let inner = Term::join(Operator::Together, s.clone(), Term::plus(s.clone()));
    let term = Term::join(Operator::Together, s, inner);
    let answers = answers(1, &term, &[0, 1], &[action(1); 4]);
    answers.iter().map(|(code, letter)| if *code == 0 { *letter } else { 'x' }).collect()
}

/// P9: the numbers of two actions by the one user.
fn one_user_apart() -> Vec<u32> {
    let term = Term::join(Operator::Apart, Term::Role(0), Term::Role(0));
    codes(&answers(1, &term, &[1], &[action(0), action(0)]))
}

/// P10 to P12.
fn settled_on_words() -> Vec<Check> {
    let begins = [0x08000000, 0x05000000, 0x01000000, 0x09000000, 0x02000000, 0x06000000];
    let mut output = [0; 10];
    let p10 = normal_form(3, 3, &POLICY_F, &mut output) == 0 && output[..6] == begins;
    let both = Term::join(Operator::Both, Term::Everyone, Term::Everyone).words();
    let mut same = vec![0; 3];
    let p11 = normal_form(1, 1, &both, &mut same) == 0 && same == both;
    let plus = [0x05000000, 0x08000000, 0x01000000, 0x01000000];
    vec![("P10", p10), ("P11", p11), ("P12", read_policy(1, 1, &plus) == Err(4))]
}

/// The twelve settled examples, and listing L with its printing.
pub fn settled() -> Vec<Check> {
    let mut checks = settled_on_f();
    let [p6, p7] = [1, 0].map(|first| manager_codes(&[0, 0, 0], &manager_then_not(first)));
    checks.extend([
        ("P6", p6 == [0, 0, 0, 9, 11]),
        ("P7", p7[..4] == [0, 9, 0, 9]),
        ("P8", three_or_more()[1..] == *"occ"),
        ("P9", one_user_apart() == [0, 9]),
    ]);
    checks.extend(settled_on_words());
    checks.push(("listing L", judge(&LISTING_L) == LISTING_L_OUTPUT));
    checks
}

/// Greedy giving: a user who holds roles 0 and 1, then one who holds only role 0.
fn not_greedy(operator: Operator) -> bool {
    let term = Term::join(operator, Term::Role(0), Term::Role(1));
    let answers = answers(2, &term, &[3, 1], &[action(0), action(1)]);
    answers == [(0, 'o'), (0, 'c')]
}

/// "Possible" is not "can still be met": user 0 is taken, and nothing can follow.
fn dead_end_is_taken() -> bool {
    let alone = |user| Term::set(&[user]);
    let with = |user| Term::join(Operator::Together, alone(0), alone(user));
    let term = Term::join(Operator::Both, with(1), with(2));
    let opened = Monitor::<Taken>::open(3, 1, &term.words(), &[1, 1, 1]);
    let Ok(mut monitor) = opened else {
        return false;
    };
    let taken = monitor.step(action(0)).code == 0 && monitor.status() == 'o';
    taken && (0..3).all(|user| monitor.step(action(user)).code == 9)
}

/// The four mistakes that tempt.
pub fn mistakes() -> Vec<Check> {
    let outlives_the_role = manager_codes(&KEEPS_A_ROLE, &manager_then_not(1)) == [0; 5];
    vec![
        ("old actions by today's grants", outlives_the_role),
        ("greedy giving", not_greedy(Operator::Together)),
        ("greedy giving, apart", not_greedy(Operator::Apart)),
        ("apart compares places", one_user_apart() == [0, 9]),
        ("possible taken for can still be met", dead_end_is_taken()),
    ]
}

/// The actions of Example 1 of document 004: an invoice is received, a check is prepared, the payment
/// is approved, the check is issued, or the payment is rejected.
const RECEIVE: u8 = 1;
const PREPARE: u8 = 2;
const APPROVE: u8 = 3;
const ISSUE: u8 = 4;
const REJECT: u8 = 5;

/// Example 1's workflow: after a rejection the check is prepared again, after an approval there may be
/// further ones, and the workflow ends once the check is issued.
fn payment_workflow() -> Vec<u8> {
    let transitions = [
        [0, RECEIVE, 1],
        [1, PREPARE, 2],
        [2, APPROVE, 3],
        [2, REJECT, 1],
        [3, APPROVE, 3],
        [3, REJECT, 1],
        [3, ISSUE, 4],
    ];
    [&[5, transitions.len() as u8, 1 << 4, 0][..], &transitions.concat()].concat()
}

/// Example 2's permissions: accountants prepare, clerks receive and issue, managers approve and reject.
fn payment_permissions() -> Vec<u8> {
    let rows = [1 << PREPARE, 1 << RECEIVE | 1 << ISSUE, 1u64 << APPROVE | 1 << REJECT];
    rows.into_iter().flat_map(u64::to_le_bytes).collect()
}

/// The traces t, t' and t'' of Examples 2 and 7 under Example 3's policy: Alice is a clerk, Bob an
/// accountant, Claire nothing yet.
pub fn payments() -> [Case; 3] {
    let (alice, bob, claire, manager) = (0, 1, 2, 2);
    let begun = [numbered(alice, RECEIVE), numbered(bob, PREPARE)];
    let ended = [numbered(alice, ISSUE), CLOSE];
    let approved: [&[u32]; 3] = [
        &[numbered(bob, APPROVE)],
        &[grant(bob, manager), numbered(bob, APPROVE)],
        &[grant(bob, manager), grant(claire, manager), numbered(claire, APPROVE)],
    ];
    approved.map(|approved| Case {
        users: 3,
        roles: 3,
        policy: POLICY_F.to_vec(),
        user_roles: vec![2, 1, 0],
        events: [&begun, approved, &ended].concat(),
        given: Some(Given { permissions: payment_permissions(), workflow: payment_workflow() }),
    })
}

/// The numbers of a case.
fn case_codes(case: &Case) -> Vec<u32> {
    run(case).map(|report| codes(&report.answers)).unwrap_or_default()
}

/// Examples 1, 2 and 7 of document 004: t is a run of the workflow, but nobody may approve; in t' Bob
/// may, but under the policy that is not finished, since another has to; in t'' Claire does.
pub fn payment_examples() -> Vec<Check> {
    let plus_everyone = Term::plus(Term::Everyone).words();
    let [t, t1, t2] = payments();
    let everything = Given { permissions: vec![255; 24], workflow: payment_workflow() };
    let all_permitted =
        Case { policy: plus_everyone.clone(), given: Some(everything), ..t.clone() };
    let without_policy = Case { policy: plus_everyone, ..t1.clone() };
    vec![
        ("Example 1: t is a run of the workflow", case_codes(&all_permitted) == [0; 5]),
        ("Example 2: in t nobody may approve", case_codes(&t) == [0, 0, 16, 17, 11]),
        ("Example 2: in t' Bob may", case_codes(&without_policy) == [0; 6]),
        ("Example 7: t' does not satisfy the policy", case_codes(&t1) == [0, 0, 0, 0, 0, 11]),
        ("Example 7: t'' is finished", case_codes(&t2) == [0; 7]),
    ]
}

#[cfg(test)]
mod tests {
    use super::*;
    use crate::policy::ones;

    /// The numbers of a monitor that makes 01's first mistake: before each event the roles kept with
    /// old actions are brought up to date.
    fn by_todays_grants(user_roles: &[u16], events: &[u32]) -> Vec<u32> {
        let opened = Monitor::<Taken>::open(3, 3, &manager_and_not().words(), user_roles);
        let mut monitor = opened.expect("it opens");
        let mut numbers = Vec::new();
        for word in events {
            let rows = monitor.raw().user_roles;
            let mut taken = monitor.taken().to_vec();
            taken.iter_mut().for_each(|action| action.held = ones(rows[action.user]));
            let letter = monitor.status();
            monitor = monitor.at(taken, 0, letter);
            numbers.push(monitor.step(*word).code);
        }
        numbers
    }

    #[test]
    fn the_first_mistake_shows_where_another_role_is_kept() {
        let events = manager_then_not(1);
        assert_eq!(by_todays_grants(&KEEPS_A_ROLE, &events), [0, 0, 0, 9, 11]);
        assert_eq!(manager_codes(&KEEPS_A_ROLE, &events), [0; 5]);
        assert_eq!(by_todays_grants(&[0; 3], &events), manager_codes(&[0; 3], &events));
    }

    #[test]
    fn settled_examples_hold() {
        let failed: Vec<_> = settled().into_iter().filter(|(_, passed)| !passed).collect();
        assert_eq!(failed, []);
        assert_eq!(settled().len(), 13);
    }

    #[test]
    fn tempting_mistakes_are_not_made() {
        let failed: Vec<_> = mistakes().into_iter().filter(|(_, passed)| !passed).collect();
        assert_eq!(failed, []);
    }

    #[test]
    fn payments_are_as_document_004_says() {
        let failed: Vec<_> = payment_examples().into_iter().filter(|(_, passed)| !passed).collect();
        assert_eq!(failed, []);
    }

    #[test]
    fn a_rejected_payment_is_prepared_again() {
        let [.., mut case] = payments();
        let [alice, bob, claire] = [0, 1, 2];
        case.events = vec![
            numbered(alice, RECEIVE),
            numbered(alice, ISSUE),
            numbered(bob, PREPARE),
            grant(claire, 2),
            numbered(claire, REJECT),
            numbered(claire, APPROVE),
            numbered(bob, PREPARE),
            numbered(claire, APPROVE),
            numbered(claire, APPROVE),
            CLOSE,
            numbered(alice, ISSUE),
            CLOSE,
        ];
        assert_eq!(case_codes(&case), [0, 17, 0, 0, 0, 17, 0, 0, 0, 11, 0, 0]);
    }

    #[test]
    fn listing_l_is_as_written() {
        assert_eq!(LISTING_L.len(), 96);
        let case = Case {
            users: 3,
            roles: 3,
            policy: POLICY_F.to_vec(),
            user_roles: vec![2, 1, 0],
            events: vec![
                0x01000001, 0x01000102, 0x02000102, 0x02000202, 0x04000000, 0x01000203, 0x01000004,
                0x04000000, 0x01000004,
            ],
            given: None,
        };
        assert_eq!(crate::casefile::write_case(&case), LISTING_L);
        assert_eq!(read_case(&LISTING_L), Ok(case));
        assert_eq!(LISTING_L_OUTPUT.lines().count(), 10);
        assert_eq!(judge(&LISTING_L), LISTING_L_OUTPUT);
    }

    #[test]
    fn normal_form_of_f_is_whole() {
        let mut output = [7; 12];
        assert_eq!(normal_form(3, 3, &POLICY_F, &mut output), 0);
        let expected = [
            0x08000000, 0x05000000, 0x01000000, 0x09000000, 0x02000000, 0x06000000, 0x02000002,
            0x09000000, 0x02000000, 0x02000000, 7, 7,
        ];
        assert_eq!(output, expected);
    }
}
