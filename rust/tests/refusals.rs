//! Each refusal that a call of this crate can give, in document 01's order, what a refused call
//! leaves, and the edges.

mod common;

use common::{marked, number, open_l, POLICY_F};
use oskhrein::{normal_form, satisfies, Event, Monitor, Refusal, Workspace, MAX_WORDS};

const EVERYONE: u32 = 0x01000000;
const PLUS: u32 = 0x05000000;
const EITHER: u32 = 0x06000000;

/// An action by a user.
fn action(user: u8) -> Event {
    Event::Action { user, number: 0 }
}

/// The number with which an opening is answered.
fn opened(users: u8, roles: u8, policy: &[u32], rows: &[u16]) -> u8 {
    number(Monitor::open(users, roles, policy, rows))
}

/// A monitor of plus everyone: two users with a role, one without.
fn plus_everyone() -> Monitor {
    Monitor::open(3, 2, &[PLUS, EVERYONE], &[1, 2, 0]).expect("it opens")
}

#[test]
fn openings_in_order() {
    assert_eq!(opened(0, 1, &[], &[]), 5);
    assert_eq!(opened(1, 17, &[EVERYONE], &[1]), 5);
    assert_eq!(opened(1, 1, &[], &[]), 1);
    assert_eq!(opened(1, 1, &[0], &[]), 2);
    assert_eq!(opened(1, 1, &[0x02000001], &[1]), 2);
    assert_eq!(opened(1, 1, &[0x03000000], &[1]), 2);
    assert_eq!(opened(1, 1, &[PLUS], &[]), 3);
    assert_eq!(opened(1, 1, &[EVERYONE, EVERYONE], &[]), 3);
    assert_eq!(opened(1, 1, &[PLUS, PLUS, EVERYONE], &[]), 4);
    assert_eq!(opened(1, 1, &[EVERYONE], &[]), 6);
    assert_eq!(opened(1, 1, &[EVERYONE], &[2]), 6);
    assert_eq!(opened(1, 1, &[EVERYONE], &[1]), 0);
}

#[test]
fn what_an_opening_leaves() {
    let monitor = open_l();
    assert_eq!(monitor.policy(), POLICY_F);
    assert_eq!((monitor.users(), monitor.roles()), (3, 3));
    assert_eq!(monitor.user_roles(), [2, 1, 0]);
    assert!(monitor.actions().is_empty() && !monitor.is_closed());
}

#[test]
fn edges_of_an_opening() {
    let chain = |operators: usize| {
        let mut words = vec![EITHER; operators];
        words.extend(vec![EVERYONE; operators + 1]);
        words
    };
    assert_eq!(opened(16, 16, &chain(15), &[0xffff; 16]), 0);
    assert_eq!(opened(16, 16, &[chain(15), vec![EVERYONE]].concat(), &[0xffff; 16]), 1);
    assert_eq!(opened(17, 16, &chain(0), &[1; 17]), 5);
    assert_eq!(opened(16, 17, &chain(0), &[1; 16]), 5);
}

#[test]
fn twelve_and_thirteen_actions() {
    let (mut monitor, mut workspace) = (plus_everyone(), Workspace::new());
    for _ in 0..12 {
        assert_eq!(monitor.event(action(1), &mut workspace), Ok(()));
    }
    let before = monitor.clone();
    assert_eq!(monitor.event(action(3), &mut workspace), Err(Refusal::Malformed));
    assert_eq!(monitor.event(action(2), &mut workspace), Err(Refusal::Full));
    assert_eq!(monitor, before);
    assert_eq!(monitor.event(Event::Close, &mut workspace), Ok(()));
    assert_eq!(monitor.event(action(1), &mut workspace), Err(Refusal::Closed));
}

#[test]
fn a_small_stack_is_enough() {
    let twelve_actions = || {
        let (mut monitor, mut workspace) = (plus_everyone(), Workspace::new());
        (0..12).all(|_| monitor.event(action(1), &mut workspace).is_ok())
    };
    let thread = std::thread::Builder::new().stack_size(128 << 10).spawn(twelve_actions);
    assert!(thread.expect("it starts").join().expect("it ends"));
}

#[test]
fn words_that_are_no_event() {
    let mut monitor = plus_everyone();
    let before = monitor.clone();
    let mut workspace = marked();
    let wrong = [0, 0x05000000, 0x01000300, 0x01010000, 0x02000002, 0x03800000, 0x04000001];
    for word in wrong {
        assert_eq!(monitor.event_word(word, &mut workspace), Err(Refusal::Malformed));
    }
    assert_eq!((monitor, workspace), (before, marked()));
}

#[test]
fn a_refused_action_fills_the_workspace_alone() {
    let mut monitor = plus_everyone();
    let before = monitor.clone();
    let mut workspace = Workspace::new();
    assert_eq!(monitor.event(action(2), &mut workspace), Err(Refusal::NotPossible));
    assert_eq!(monitor, before);
    assert_eq!((workspace.possible(0), workspace.possible(1)), (0b11, 0));
    assert_eq!(workspace.words().iter().filter(|word| **word != 0).count(), 1);
}

#[test]
fn a_close_leaves_the_workspace_alone() {
    let mut monitor = plus_everyone();
    let mut workspace = marked();
    assert_eq!(monitor.event(Event::Close, &mut workspace), Err(Refusal::NotSatisfied));
    assert!(!monitor.is_closed());
    assert_eq!(workspace, marked());
    assert_eq!(monitor.event(action(0), &mut workspace), Ok(()));
    assert_eq!((workspace.satisfied(1), workspace.possible(1)), (0b11, 0b11));
    let filled = workspace.clone();
    assert_eq!(monitor.event(Event::Close, &mut workspace), Ok(()));
    assert!(monitor.is_closed());
    assert_eq!(workspace, filled);
}

#[test]
fn grants_alter_one_bit() {
    let (mut monitor, mut workspace) = (plus_everyone(), marked());
    for event in [Event::Grant { user: 2, role: 1 }, Event::Revoke { user: 0, role: 1 }] {
        assert_eq!(monitor.event(event, &mut workspace), Ok(()));
    }
    assert_eq!(monitor.user_roles(), [1, 2, 2]);
    assert_eq!(monitor.event(Event::Revoke { user: 1, role: 1 }, &mut workspace), Ok(()));
    assert_eq!(monitor.user_roles(), [1, 0, 2]);
    assert_eq!(workspace, marked());
}

#[test]
fn multisets_in_order() {
    let tested = |policy: &[u32], rows: &[u16], counts: &[u8]| {
        let mut all = [0; 16];
        all[..counts.len()].copy_from_slice(counts);
        let mut workspace = marked();
        let answer = satisfies(2, 1, policy, rows, &all, &mut workspace);
        assert_eq!(workspace == marked(), answer.is_err());
        answer.map_err(Refusal::number)
    };
    assert_eq!(tested(&[], &[1, 1], &[1]), Err(1));
    assert_eq!(tested(&[EVERYONE], &[1], &[0, 0, 1]), Err(6));
    assert_eq!(tested(&[EVERYONE], &[1, 1], &[12, 12, 1]), Err(7));
    assert_eq!(tested(&[EVERYONE], &[1, 1], &[12, 1]), Err(8));
    assert_eq!(tested(&[EVERYONE], &[1, 1], &[255, 255]), Err(8));
    assert_eq!(tested(&[PLUS, EVERYONE], &[1, 1], &[6, 6]), Ok(true));
}

#[test]
fn outputs() {
    let policy = [EITHER, PLUS, EVERYONE, EVERYONE];
    let mut out = [7; 6];
    assert_eq!(normal_form(1, 1, &policy, &mut out[..3]), Err(Refusal::Output));
    assert_eq!(normal_form(0, 1, &policy, &mut out[..3]), Err(Refusal::Counts));
    assert_eq!(out, [7; 6]);
    assert_eq!(number(normal_form(1, 1, &policy, &mut out)), 0);
    assert_eq!(out, [EITHER, EVERYONE, PLUS, EVERYONE, 7, 7]);
    assert_eq!(number(normal_form(1, 1, &[EVERYONE; 32], &mut [0; MAX_WORDS])), 1);
}

#[test]
fn refusals_say_what_they_are() {
    let refusal = Monitor::open(1, 1, &[EVERYONE], &[]).expect_err("it has no row");
    assert_eq!(refusal.to_string(), "6: role rows not one a user, or a role not declared");
    assert_eq!(Refusal::Monitor.number(), 15);
}
