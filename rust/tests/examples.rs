//! Document 01's listing L, its settled examples P1 to P12, P6 and P7 as document 02 alters them, and
//! its four tempting mistakes.

mod common;

use common::{marked, number, open_l, step, EVENTS_L, POLICY_F};
use oskhrein::{normal_form, satisfies, Event, Monitor, Refusal, Workspace, MAX_WORDS};

/// An action by a user.
fn action(user: u8) -> Event {
    Event::Action { user, number: 0 }
}

/// The number and the letter of each event.
fn answers(roles: u8, policy: &[u32], rows: &[u16], events: &[Event]) -> Vec<(u8, char)> {
    let mut workspace = Workspace::new();
    let users = rows.len() as u8;
    let mut monitor = Monitor::open(users, roles, policy, rows).expect("it opens");
    events.iter().map(|event| step(&mut monitor, event.word(), &mut workspace)).collect()
}

/// The numbers alone.
fn numbers(roles: u8, policy: &[u32], rows: &[u16], events: &[Event]) -> Vec<u8> {
    answers(roles, policy, rows, events).into_iter().map(|(number, _)| number).collect()
}

/// The multiset test with policy F and roles 2, 5, 4.
fn satisfies_f(counts: [u8; 3]) -> Result<bool, Refusal> {
    let mut all = [0; 16];
    all[..3].copy_from_slice(&counts);
    satisfies(3, 3, &POLICY_F, &[2, 5, 4], &all, &mut Workspace::new())
}

#[test]
fn p1_listing_l() {
    let (mut monitor, mut workspace) = (open_l(), Workspace::new());
    let mut lines = Vec::new();
    for (place, word) in EVENTS_L.into_iter().enumerate() {
        let (number, letter) = step(&mut monitor, word, &mut workspace);
        lines.push(format!("{} {number} {letter}", place + 1));
    }
    lines.push(format!("taken {}", monitor.actions().len()));
    let printed = "1 0 o|2 0 o|3 0 o|4 0 o|5 11 o|6 0 c|7 0 c|8 0 d|9 10 d|taken 4";
    assert_eq!(lines.join("|"), printed);
}

#[test]
fn p2_p3_p4_multisets() {
    assert_eq!(satisfies_f([2, 1, 1]), Ok(true));
    assert_eq!(satisfies_f([1, 0, 1]), Ok(false));
    assert_eq!(satisfies_f([1, 1, 0]), Ok(false));
    assert_eq!(satisfies_f([0, 0, 0]), Ok(false));
}

/// The words of single actions tell whose they are: role 0 is at word 1, role 1 at word 3, role 2 at
/// word 4.
#[test]
fn a_multisets_actions_are_numbered_by_ascending_user() {
    let policy = [0x08000000, 0x02000000, 0x08000000, 0x02000001, 0x02000002];
    let mut counts = [0; 16];
    (counts[0], counts[1], counts[3]) = (1, 2, 1);
    let (mut workspace, mut other) = (Workspace::new(), marked());
    for workspace in [&mut workspace, &mut other] {
        let answer = satisfies(4, 3, &policy, &[2, 1, 1, 4], &counts, workspace);
        assert_eq!(answer, Ok(false));
    }
    let singles = [1, 2, 4, 8].map(|set| workspace.satisfied(set));
    assert_eq!(singles, [1 << 3, 1 << 1, 1 << 1, 1 << 4]);
    assert_eq!(workspace, other);
}

#[test]
fn p5_a_user_without_a_role_acts_first() {
    let (mut monitor, mut workspace) = (open_l(), Workspace::new());
    assert_eq!(monitor.event(action(2), &mut workspace), Err(Refusal::NotPossible));
}

/// P6 and P7: together(role 2, not role 2), and who tries first.
fn role_withdrawn(first: u8) -> Vec<u8> {
    let policy = [0x08000000, 0x02000002, 0x04000000, 0x02000002];
    let (grant, revoke) = (Event::Grant { user: 1, role: 2 }, Event::Revoke { user: 1, role: 2 });
    numbers(3, &policy, &[0; 3], &[grant, action(first), revoke, action(1), Event::Close])
}

#[test]
fn p6_not_asks_for_a_role() {
    assert_eq!(role_withdrawn(1), [0, 0, 0, 9, 11]);
}

#[test]
fn p7_neither_user_holds_a_role() {
    assert_eq!(role_withdrawn(0), [0, 9, 0, 9, 11]);
}

#[test]
fn p8_three_or_more() {
    let s = 0x03000002;
    let policy = [0x08000000, s, 0x08000000, s, 0x05000000, s];
    let answers = answers(1, &policy, &[0, 1], &[action(1); 4]);
    assert_eq!(answers, [(0, 'o'), (0, 'o'), (0, 'c'), (0, 'c')]);
}

#[test]
fn p9_apart_compares_users() {
    let policy = [0x09000000, 0x02000000, 0x02000000];
    assert_eq!(numbers(1, &policy, &[1], &[action(0); 2]), [0, 9]);
}

#[test]
fn p10_normal_form_of_f() {
    let mut out = [0; MAX_WORDS];
    let normal = normal_form(3, 3, &POLICY_F, &mut out).expect("it is accepted");
    let begins = [0x08000000, 0x05000000, 0x01000000, 0x09000000, 0x02000000, 0x06000000];
    assert_eq!(normal[..6], begins);
    assert_eq!(normal.len(), POLICY_F.len());
}

#[test]
fn p11_its_own_normal_form() {
    let policy = [0x07000000, 0x01000000, 0x01000000];
    let mut out = [0; 3];
    assert_eq!(normal_form(1, 1, &policy, &mut out), Ok(&policy[..]));
}

#[test]
fn p12_plus_over_together() {
    let policy = [0x05000000, 0x08000000, 0x01000000, 0x01000000];
    let mut workspace = Workspace::new();
    assert_eq!(number(Monitor::open(1, 1, &policy, &[1])), 4);
    assert_eq!(number(normal_form(1, 1, &policy, &mut [0; 4])), 4);
    assert_eq!(number(satisfies(1, 1, &policy, &[1], &[0; 16], &mut workspace)), 4);
}

#[test]
fn old_actions_keep_what_was_noted() {
    let policy = [0x09000000, 0x05000000, 0x02000000, 0x02000001];
    let leaves = Event::Revoke { user: 0, role: 0 };
    let events = [action(0), leaves, action(0), action(1), Event::Close];
    assert_eq!(numbers(2, &policy, &[1, 2], &events), [0, 0, 9, 0, 0]);
}

#[test]
fn actions_are_not_given_greedily() {
    let policy = [0x08000000, 0x02000000, 0x02000001];
    assert_eq!(numbers(2, &policy, &[3, 1], &[action(0), action(1)]), [0, 0]);
}

#[test]
fn possible_is_not_what_can_still_be_met() {
    let (a, b, c) = (0x03000001, 0x03000002, 0x03000004);
    let policy = [0x07000000, 0x08000000, a, b, 0x08000000, a, c];
    assert_eq!(numbers(1, &policy, &[1; 3], &[action(0), action(1)]), [0, 9]);
    assert_eq!(numbers(1, &policy, &[1; 3], &[action(0), action(2)]), [0, 9]);
}
