//! The status that a monitor keeps: what sets it, what leaves it, what a close does with it, and that
//! neither asks for a workspace.

mod common;

use common::{open_l, open_payment, EVENTS_L};
use oskhrein::raw::{self, Calls};
use oskhrein::{Event, Monitor, Refusal, Status, Workspace};

/// A word of kind 4 that is no event.
const CLOSE_OUT_OF_LAYOUT: u32 = 0x04000001;

/// An action by a user.
fn action(user: u8) -> Event {
    Event::Action { user, number: 0 }
}

/// A monitor of apart(plus role 0, role 1), for a counter, an approver and one without a role.
fn quote() -> Monitor {
    let policy = [0x09000000, 0x05000000, 0x02000000, 0x02000001];
    Monitor::open(3, 2, &policy, &[1, 2, 0]).expect("it opens")
}

/// The same, counted and approved.
fn complete() -> Monitor {
    let (mut monitor, mut workspace) = (quote(), Workspace::new());
    for user in [0, 1] {
        monitor.event(action(user), &mut workspace).expect("it is taken");
    }
    monitor
}

/// The letter in the monitor itself.
fn kept(monitor: &Monitor) -> char {
    char::from(monitor.as_raw().instance.status)
}

#[test]
fn an_opening_sets_it_and_the_blank_monitor_has_none() {
    assert_eq!([open_l(), open_payment(), quote()].map(|own| kept(&own)), ['o'; 3]);
    assert_eq!(raw::Monitor::BLANK.instance.status, 0);
    assert_eq!(Calls::LINKED.status(&raw::Monitor::BLANK), 15);
}

#[test]
fn the_call_answers_what_is_kept() {
    let mut workspace = Workspace::new();
    for mut monitor in [open_l(), open_payment()] {
        for word in EVENTS_L {
            let before = kept(&monitor);
            let answer = monitor.event_word(word, &mut workspace);
            let status = monitor.status().expect("it is well formed");
            assert_eq!(status.letter(), kept(&monitor));
            let sets = answer.is_ok() && matches!(word >> 24, 1 | 4);
            assert!(sets || kept(&monitor) == before, "{word:08x}");
        }
    }
}

#[test]
fn an_accepted_action_may_make_it_open_again() {
    let policy =
        [0x06000000, 0x01000000, 0x08000000, 0x01000000, 0x08000000, 0x01000000, 0x01000000];
    let mut monitor = Monitor::open(1, 1, &policy, &[1]).expect("it opens");
    let mut workspace = Workspace::new();
    let letters = [(); 3].map(|()| {
        monitor.event(action(0), &mut workspace).expect("one action or three");
        kept(&monitor)
    });
    assert_eq!(letters, ['c', 'o', 'c']);
}

#[test]
fn grants_revocations_and_refusals_leave_it() {
    let (mut monitor, mut workspace) = (complete(), Workspace::new());
    for user in [0, 1] {
        let revoked = monitor.event(Event::Revoke { user, role: user }, &mut workspace);
        assert_eq!((revoked, kept(&monitor)), (Ok(()), 'c'), "nobody holds a role any more");
    }
    monitor.event(Event::Grant { user: 0, role: 1 }, &mut workspace).expect("it is accepted");
    assert_eq!(kept(&monitor), 'c', "the counter is an approver");
    assert_eq!(monitor.event(action(2), &mut workspace), Err(Refusal::NotPossible));
    assert_eq!(monitor.event_word(0, &mut workspace), Err(Refusal::Malformed));
    assert_eq!(kept(&monitor), 'c');
    monitor.close().expect("what was noted satisfies");
    assert_eq!((kept(&monitor), monitor.as_raw().instance.closed), ('d', 1));
    assert_eq!(monitor.event(action(0), &mut workspace), Err(Refusal::Closed));
    assert_eq!(kept(&monitor), 'd');
}

/// The number that a word is answered in a workspace of so many words, which it must leave alone.
fn answered_in(length: usize, monitor: &raw::Monitor, word: u32) -> (u8, raw::Monitor) {
    let (mut own, mut workspace) = (*monitor, vec![0xa5a5a5a5; length]);
    let number = Calls::LINKED.event(&mut own, word, &mut workspace);
    assert!(workspace.iter().all(|word| *word == 0xa5a5a5a5), "{word:08x} in {length}");
    (number, own)
}

#[test]
fn a_close_needs_no_workspace_and_leaves_it_alone() {
    let mut closed = complete();
    closed.close().expect("it is complete");
    let mut malformed = *closed.as_raw();
    malformed.instance.status = b'c';
    for length in [0, 1, 8191, 8192, 8193] {
        let told = |monitor: &raw::Monitor| {
            [Event::Close.word(), CLOSE_OUT_OF_LAYOUT, 0x04ffffff].map(|word| {
                let (number, left) = answered_in(length, monitor, word);
                assert!(number == 0 || left == *monitor);
                number
            })
        };
        assert_eq!(told(&malformed), [15; 3]);
        assert_eq!(told(closed.as_raw()), [10; 3]);
        assert_eq!(told(quote().as_raw()), [11, 7, 7]);
        assert_eq!(told(complete().as_raw()), [0, 7, 7]);
        assert_eq!(answered_in(length, complete().as_raw(), 0x04000000).1, *closed.as_raw());
    }
}

#[test]
fn other_words_need_the_whole_workspace() {
    let mut malformed = *complete().as_raw();
    malformed.instance.status = 0;
    let mut closed = complete();
    closed.close().expect("it is complete");
    let events = [0x01000000, 0x01000300, 0x02000000, 0x03000000, 0x03010000];
    for word in events.into_iter().chain([0, 0x05000000, 0xff000000]) {
        for monitor in [&malformed, complete().as_raw(), closed.as_raw()] {
            assert_eq!(answered_in(0, monitor, word), (12, *monitor), "{word:08x}");
            assert_eq!(answered_in(8191, monitor, word), (12, *monitor), "{word:08x}");
        }
    }
}

#[test]
fn status_and_close_follow_a_letter_written_by_hand() {
    let mut written = *complete().as_raw();
    written.instance.status = b'o';
    let mut monitor = Monitor::from_raw(written);
    assert_eq!(monitor.status(), Ok(Status::Open), "though the actions satisfy");
    assert_eq!(monitor.close(), Err(Refusal::NotSatisfied));
    let mut begun = quote();
    let mut workspace = Workspace::new();
    begun.event(action(0), &mut workspace).expect("it is taken");
    written = *begun.as_raw();
    written.instance.status = b'c';
    let mut monitor = Monitor::from_raw(written);
    assert_eq!(monitor.status(), Ok(Status::Complete), "though they do not");
    assert_eq!(monitor.clone().close(), Ok(()));
    monitor.event(action(0), &mut workspace).expect("it is taken");
    assert_eq!(monitor.status(), Ok(Status::Open), "an action works it out anew");
}

#[test]
fn a_close_also_looks_at_the_workflow() {
    let mut written = *open_payment().as_raw();
    written.instance.taken = 1;
    written.instance.status = b'c';
    for state in 0..5 {
        written.instance.state = state;
        let mut monitor = Monitor::from_raw(written);
        assert_eq!(monitor.status(), Ok(Status::Complete));
        let expected = if state == 4 { Ok(()) } else { Err(Refusal::NotSatisfied) };
        assert_eq!(monitor.close(), expected, "state {state}");
    }
}
