//! Who may act: against an action tried for each user, and as a program keeps it beside a monitor.

mod common;

use common::{marked, open_l, EVENTS_L};
use oskhrein::raw::Calls;
use oskhrein::{Event, Monitor, Refusal, Status, Users, Workspace, MAX_USERS};

const EVERYONE: u32 = 0x01000000;
const PLUS: u32 = 0x05000000;

/// An action by a user.
fn action(user: u8) -> Event {
    Event::Action { user, number: 0 }
}

/// Who may act on a well-formed monitor.
fn enabled(monitor: &Monitor) -> Users {
    monitor.enabled(0, &mut Workspace::new()).expect("it is well formed")
}

/// The same by an action tried for each user, and the workspace that the last one's leaves.
fn tried(monitor: &Monitor, workspace: &mut Workspace) -> Users {
    let mut takes = |user| monitor.clone().event(action(user), workspace).is_ok();
    let users = (0..MAX_USERS as u8).filter(|user| usize::from(*user) < monitor.users());
    Users::from_bits(users.map(|user| u16::from(takes(user)) << user).sum())
}

/// A monitor of plus everyone with so many actions: two users with a role, one without.
fn plus_everyone(actions: usize) -> Monitor {
    let mut monitor = Monitor::open(3, 2, &[PLUS, EVERYONE], &[1, 2, 0]).expect("it opens");
    for _ in 0..actions {
        monitor.event(action(1), &mut Workspace::new()).expect("it is taken");
    }
    monitor
}

/// Numbers that look random.
struct Random(u32);

impl Random {
    fn below(&mut self, bound: u32) -> u32 {
        self.0 = self.0.wrapping_mul(1664525).wrapping_add(1013904223);
        (self.0 >> 8) % bound
    }

    /// An event word: mostly an action, and at times one out of layout.
    fn word(&mut self, users: u32, roles: u32) -> u32 {
        let kind = [1, 1, 1, 1, 2, 3, 4, 5][self.below(8) as usize];
        let (user, low) = (self.below(users + 1), self.below(roles + 1));
        kind << 24 | if kind == 4 { 0 } else { user << 8 | low }
    }
}

/// Policies under which users differ, with their roles: 01's F, four eyes, and one with sets, not,
/// both and either.
fn policies() -> [(Vec<u32>, Vec<u16>); 3] {
    let f = common::POLICY_F.to_vec();
    let four_eyes = vec![0x09000000, PLUS, 0x02000000, PLUS, 0x02000001];
    let sets = [0x06000000, 0x03000006, 0x04000000, 0x02000002, PLUS, 0x03000009];
    let sets = [&[0x08000000, 0x07000000, EVERYONE][..], &sets].concat();
    [(f, vec![2, 1, 0, 4]), (four_eyes, vec![3, 1, 2, 0]), (sets, vec![1, 4, 7, 0])]
}

#[test]
fn listing_l_from_the_opening_to_the_close() {
    let (mut monitor, mut workspace) = (open_l(), Workspace::new());
    let mut masks = vec![enabled(&monitor).bits()];
    for word in EVENTS_L {
        // the close answered 11 and the action answered 10 are among them
        let _ = monitor.event_word(word, &mut workspace);
        masks.push(enabled(&monitor).bits());
    }
    assert_eq!(masks, [0b011, 0b011, 0b011, 0b011, 0b111, 0b111, 0b111, 0b111, 0, 0]);
}

#[test]
fn a_program_that_asks_anew_after_accepted_events_is_never_wrong() {
    let mut random = Random(7);
    let mut seen = [0; 3];
    for _ in 0..60 {
        for (policy, rows) in policies() {
            let mut monitor = Monitor::open(4, 3, &policy, &rows).expect("it opens");
            let mut workspace = Workspace::new();
            let mut kept = enabled(&monitor);
            for _ in 0..20 {
                let word = random.word(4, 3);
                let accepted = monitor.event_word(word, &mut workspace).is_ok();
                if accepted {
                    kept = enabled(&monitor);
                }
                let (mut own, mut last) = (marked(), marked());
                assert_eq!(monitor.enabled(0, &mut own), Ok(kept), "{word:08x}");
                assert_eq!(tried(&monitor, &mut last), kept, "{word:08x}");
                let judged = !monitor.is_closed() && monitor.actions().len() < 12;
                assert_eq!(own, if judged { last } else { marked() });
                seen[if !accepted { 2 } else { usize::from(kept.is_empty()) }] += 1;
            }
        }
    }
    assert!(seen.iter().all(|count| *count > 50), "{seen:?}");
}

#[test]
fn without_permissions_the_number_of_an_action_plays_no_part() {
    let monitor = open_l();
    for number in 0..=u8::MAX {
        let own = monitor.enabled(number, &mut Workspace::new());
        assert_eq!(own, Ok(enabled(&monitor)));
        let accepted = |user: u8| {
            let action = Event::Action { user, number };
            monitor.clone().event(action, &mut Workspace::new()).is_ok()
        };
        assert!((0..3).all(|user| accepted(user) == enabled(&monitor).contains(user)));
    }
}

#[test]
fn a_grant_and_a_revocation_alter_it() {
    let (mut monitor, mut workspace) = (plus_everyone(0), Workspace::new());
    assert_eq!(enabled(&monitor).bits(), 0b011);
    monitor.event(Event::Grant { user: 2, role: 0 }, &mut workspace).expect("it is accepted");
    assert_eq!(enabled(&monitor).bits(), 0b111);
    monitor.event(Event::Revoke { user: 0, role: 0 }, &mut workspace).expect("it is accepted");
    assert_eq!(enabled(&monitor).bits(), 0b110);
}

#[test]
fn nobody_may_act_on_a_full_or_closed_monitor() {
    let mut workspace = marked();
    assert_eq!(enabled(&plus_everyone(11)).bits(), 0b011);
    let full = plus_everyone(12);
    assert_eq!(full.enabled(0, &mut workspace), Ok(Users::default()));
    assert_eq!(workspace, marked());
    let mut closed = plus_everyone(1);
    closed.close().expect("it satisfies");
    assert_eq!(closed.enabled(0, &mut workspace), Ok(Users::default()));
    assert_eq!(workspace, marked());
    assert_eq!(closed.status(), Ok(Status::Closed));
}

#[test]
fn the_workspace_speaks_of_the_last_user() {
    let monitor = plus_everyone(1);
    let mut workspace = marked();
    assert_eq!(monitor.enabled(0, &mut workspace).map(Users::bits), Ok(0b011));
    assert_eq!(workspace.possible(0b01), 0b11, "user 1's, which is taken");
    assert_eq!(workspace.possible(0b10), 0, "user 2's, who may not act");
    assert_eq!(monitor.actions().len(), 1);
}

#[test]
fn sixteen_users_fill_the_mask() {
    let rows: Vec<u16> = (0..16).map(|user| u16::from(user % 3 != 0)).collect();
    let monitor = Monitor::open(16, 1, &[PLUS, EVERYONE], &rows).expect("it opens");
    let users: Vec<u8> = enabled(&monitor).iter().collect();
    assert_eq!(users, [1, 2, 4, 5, 7, 8, 10, 11, 13, 14]);
}

#[test]
fn refusals_leave_the_users_alone() {
    let malformed = Monitor::from_bytes(&[0; Monitor::BYTES]);
    let mut workspace = marked();
    assert_eq!(malformed.enabled(0, &mut workspace), Err(Refusal::Monitor));
    assert_eq!(workspace, marked());
    let mut users = 0xa5a5;
    let mut short = vec![7; Workspace::WORDS - 1];
    assert_eq!(Calls::LINKED.enabled(malformed.as_raw(), 0, &mut short, &mut users), 12);
    assert_eq!(Calls::LINKED.enabled(open_l().as_raw(), 0, &mut short, &mut users), 12);
    assert_eq!(short, vec![7; Workspace::WORDS - 1]);
    let mut long = vec![7; Workspace::WORDS + 1];
    assert_eq!(Calls::LINKED.enabled(malformed.as_raw(), 0, &mut long, &mut users), 15);
    assert_eq!(users, 0xa5a5);
    assert_eq!(Calls::LINKED.enabled(open_l().as_raw(), 0, &mut long, &mut users), 0);
    assert_eq!((users, long[Workspace::WORDS]), (0b011, 7));
}

#[test]
fn a_small_stack_is_enough() {
    let monitor = plus_everyone(11);
    let asked = move || monitor.enabled(0, &mut Workspace::new()).map(Users::bits);
    let thread = std::thread::Builder::new().stack_size(128 << 10).spawn(asked);
    assert_eq!(thread.expect("it starts").join().expect("it ends"), Ok(0b011));
}
