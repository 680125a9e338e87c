//! Monitors stored in bytes and reloaded, and bytes in which none was stored.

mod common;

use common::{open_l, open_payment, payment, step, EVENTS_L, POLICY_F};
use oskhrein::raw::Calls;
use oskhrein::{Event, Monitor, Refusal, ReloadFault, Status, Users, Workspace, LAYOUT};

/// The bytes of listing L's monitor with its first two actions.
fn stored() -> [u8; Monitor::BYTES] {
    let (mut monitor, mut workspace) = (open_l(), Workspace::new());
    for word in &EVENTS_L[..2] {
        monitor.event_word(*word, &mut workspace).expect("it is accepted");
    }
    monitor.to_bytes()
}

/// The same under the payment workflow.
fn stored_payment() -> [u8; Monitor::BYTES] {
    let (mut monitor, mut workspace) = (open_payment(), Workspace::new());
    for word in &EVENTS_L[..2] {
        monitor.event_word(*word, &mut workspace).expect("it is accepted");
    }
    monitor.to_bytes()
}

/// Whether a monitor stored so, but with this byte at this place, is malformed, by every call on one.
fn is_malformed(stored: &[u8; Monitor::BYTES], place: usize, byte: u8) -> bool {
    let mut bytes = *stored;
    bytes[place] = byte;
    is_refused(&bytes)
}

/// Whether these bytes are no monitor: by every call on one, which then alters nothing, and by a reload.
fn is_refused(bytes: &[u8; Monitor::BYTES]) -> bool {
    let mut monitor = Monitor::from_bytes(bytes);
    let mut workspace = Workspace::new();
    let status = monitor.status();
    let users = monitor.enabled(0, &mut workspace);
    let close = monitor.clone().close();
    let event = monitor.event(Event::Grant { user: 0, role: 1 }, &mut workspace);
    let refused = [status.err(), users.err(), close.err(), event.err()]
        .map(|refusal| refusal == Some(Refusal::Monitor));
    assert_eq!(refused, [refused[0]; 4]);
    let reloaded = Monitor::reload(LAYOUT, bytes);
    assert_eq!(reloaded.err(), refused[0].then_some(ReloadFault::Malformed));
    refused[0] && monitor.to_bytes() == *bytes
}

#[test]
fn reloaded_at_every_step() {
    let mut workspace = Workspace::new();
    for mut kept in [open_l(), open_payment()] {
        let mut reloaded = kept.clone();
        for word in EVENTS_L {
            reloaded = Monitor::reload(LAYOUT, &reloaded.to_bytes()).expect("it was stored");
            let answers = [&mut kept, &mut reloaded].map(|i| step(i, word, &mut workspace));
            assert_eq!(answers[0], answers[1]);
            assert_eq!(kept, reloaded);
        }
    }
}

#[test]
fn bytes_are_in_the_layout_of_c() {
    let bytes = stored();
    assert_eq!(bytes.len(), 592);
    assert_eq!(bytes[..128], [0; 128]);
    assert_eq!(bytes[128..134], [2, 0, 1, 0, 0, 0]);
    assert_eq!(bytes[134..160], [0; 26]);
    assert_eq!(bytes[160..168], [3, 0, 0, 0, 3, 0, 0, 0]);
    let words: Vec<u8> = POLICY_F.iter().flat_map(|word| word.to_le_bytes()).collect();
    assert_eq!(bytes[168..208], words);
    assert_eq!(bytes[208..292], [0; 84]);
    // user 0 met everyone, the term at word 9; user 1 also role 0, at words 2, 6 and 7
    assert_eq!(bytes[292..300], [0, 0, 0, 0, 0, 1 << 1, 0, 0]);
    assert_eq!(bytes[300..308], [1, 0, 0, 0, 1 << 2 | 1 << 6 | 1 << 7, 1 << 1, 0, 0]);
    assert_eq!(bytes[308..584], [0; 276]);
    assert_eq!(bytes[584..], [10, 2, 0, b'o', 0, 0, 0, 0]);
}

#[test]
fn permissions_and_workflow_are_in_the_layout_of_c() {
    let bytes = stored_payment();
    let secure = payment();
    assert_eq!(bytes[..24], secure.permissions().to_bytes());
    assert_eq!(bytes[24..128], [0; 104]);
    let transitions = &secure.workflow().to_bytes()[4..];
    assert_eq!(bytes[388..409], *transitions);
    assert_eq!(bytes[409..580], [0; 171]);
    assert_eq!(bytes[580..584], [1 << 4, 0, 5, 7]);
    assert_eq!(bytes[584..], [10, 2, 0, b'o', 2, 0, 0, 0]);
}

#[test]
fn the_library_has_this_version_and_layout() {
    let part = |text: &str| text.parse::<u32>().expect("cargo gives numbers");
    let major = part(env!("CARGO_PKG_VERSION_MAJOR"));
    let minor = part(env!("CARGO_PKG_VERSION_MINOR"));
    let patch = part(env!("CARGO_PKG_VERSION_PATCH"));
    assert_eq!(Calls::LINKED.version(), major << 16 | minor << 8 | patch);
    assert_eq!(Calls::LINKED.layout(), LAYOUT);
}

/// A monitor as layout 2 stored it: together(role 2, not role 2) with two actions of user 1, the second
/// of which 0.3.0 noted at word 2 although the user had lost every role.
fn stored_in_layout_2() -> [u8; 260] {
    let mut bytes = [0; 260];
    bytes[32..36].copy_from_slice(&[3, 0, 3, 0]);
    for (place, word) in [0x08000000u32, 0x02000002, 0x04000000, 0x02000002].iter().enumerate() {
        bytes[36 + 4 * place..40 + 4 * place].copy_from_slice(&word.to_le_bytes());
    }
    bytes[160..168].copy_from_slice(&[1, 0, 0, 0, 1 << 1 | 1 << 3, 0, 0, 0]);
    bytes[168..176].copy_from_slice(&[1, 0, 0, 0, 1 << 2, 0, 0, 0]);
    bytes[256..].copy_from_slice(&[4, 0, 2, 0]);
    bytes
}

#[test]
fn bytes_of_layout_2_are_malformed() {
    let old = stored_in_layout_2();
    assert_eq!(Monitor::reload(2, &old), Err(ReloadFault::Layout(2)));
    for start in [0, Monitor::BYTES - old.len()] {
        let mut bytes = [0; Monitor::BYTES];
        bytes[start..start + old.len()].copy_from_slice(&old);
        assert!(is_refused(&bytes));
    }
}

/// A monitor as 0.5.0 stored it under layout 3: apart(role 0, role 1) for two users and two roles, of
/// whom one counted, then the other approved, and closed if the mark is 1.
fn stored_in_layout_3(taken: u8, mark: u8) -> [u8; Monitor::BYTES] {
    let mut bytes = [0; Monitor::BYTES];
    bytes[128..132].copy_from_slice(&[1, 0, 2, 0]);
    bytes[160..168].copy_from_slice(&[2, 0, 0, 0, 2, 0, 0, 0]);
    for (place, word) in [0x09000000u32, 0x02000000, 0x02000001].iter().enumerate() {
        bytes[168 + 4 * place..172 + 4 * place].copy_from_slice(&word.to_le_bytes());
    }
    let actions = [[0, 0, 0, 0, 1 << 1, 0, 0, 0], [1, 0, 0, 0, 1 << 2, 0, 0, 0]];
    for (place, action) in actions.iter().enumerate().take(taken.into()) {
        bytes[292 + 8 * place..300 + 8 * place].copy_from_slice(action);
    }
    // two bytes count the words, one the actions, then comes the mark
    bytes[584..588].copy_from_slice(&[3, 0, taken, mark]);
    bytes
}

/// A monitor as layout 3 would store it.
fn in_layout_3(monitor: &Monitor) -> [u8; Monitor::BYTES] {
    let mut bytes = monitor.to_bytes();
    let own = &monitor.as_raw().instance;
    bytes[584..588].copy_from_slice(&[own.words, 0, own.taken, own.closed]);
    bytes
}

#[test]
fn bytes_of_layout_3_are_malformed() {
    for (taken, mark) in [(0, 0), (1, 0), (2, 0), (2, 1)] {
        assert!(is_refused(&stored_in_layout_3(taken, mark)), "{taken} taken, mark {mark}");
    }
    // where the letter stands, they have the mark, which is 0 or 1
    let mut workspace = Workspace::new();
    for mut monitor in [open_l(), open_payment()] {
        assert!(is_refused(&in_layout_3(&monitor)));
        for word in EVENTS_L {
            let _ = monitor.event_word(word, &mut workspace);
            assert!(is_refused(&in_layout_3(&monitor)), "{word:08x}");
        }
    }
    assert!(is_refused(&[0; Monitor::BYTES]), "the blank one, the same in both");
}

#[test]
fn an_earlier_layout_is_told_and_what_to_do() {
    let fault = Monitor::reload(3, &stored_in_layout_3(2, 0)).expect_err("it is refused");
    assert_eq!(fault, ReloadFault::Layout(3));
    let told = fault.to_string();
    assert!(told.contains("layout 3") && told.contains("has no status letter"), "{told}");
    assert!(told.contains("open it anew and send its accepted events again"), "{told}");
    assert_eq!(Monitor::reload(LAYOUT + 1, &stored()), Err(ReloadFault::Layout(LAYOUT + 1)));
    assert_eq!(Monitor::reload(LAYOUT, &stored()[1..]), Err(ReloadFault::Length(591)));
    assert_eq!(Monitor::reload(LAYOUT, &[]), Err(ReloadFault::Length(0)));
}

#[test]
fn opened_anew_and_sent_its_events_it_has_the_letter() -> Result<(), Refusal> {
    let policy = [0x09000000, 0x02000000, 0x02000001];
    let mut workspace = Workspace::new();
    let mut anew = Monitor::open(2, 2, &policy, &[1, 2])?;
    for (taken, status) in [(0, Status::Open), (1, Status::Open), (2, Status::Complete)] {
        assert_eq!(anew.status(), Ok(status));
        assert_eq!(in_layout_3(&anew), stored_in_layout_3(taken, 0));
        if taken < 2 {
            anew.event(Event::Action { user: taken, number: 0 }, &mut workspace)?;
        }
    }
    anew.close()?;
    assert_eq!((anew.status(), in_layout_3(&anew)), (Ok(Status::Closed), stored_in_layout_3(2, 1)));
    Ok(())
}

#[test]
fn every_part_of_fifteen() {
    assert!(!is_malformed(&stored(), 584, 10), "as it was stored");
    let wrong = [
        ("a role that is not declared", 128, 8),
        ("an unused row", 159, 1),
        ("users", 160, 17),
        ("users above the array", 161, 1),
        ("users, high byte", 163, 1),
        ("roles", 164, 0),
        ("roles, high byte", 167, 255),
        ("policy", 171, 10),
        ("an unused policy word", 291, 1),
        ("a user that is not declared", 292, 3),
        ("a user of more than a byte", 293, 1),
        ("a user of more than two bytes", 295, 128),
        ("a bit at no unit term", 296, 1),
        ("a bit past the policy", 299, 128),
        ("an unused place's user", 308, 1),
        ("an unused place's user, high byte", 383, 1),
        ("an unused place's bits", 312, 4),
        ("word count", 584, 9),
        ("word count above 31", 584, 200),
        ("actions above twelve", 585, 13),
        ("actions above the array", 585, 255),
        ("fewer actions", 585, 1),
        ("the mark without its letter", 586, 1),
        ("any mark without its letter", 586, 255),
        ("the letter without its mark", 587, b'd'),
        ("no letter", 587, 0),
        ("a letter of a multiset test", 587, b'y'),
        ("a capital letter", 587, b'C'),
    ];
    for (what, place, byte) in wrong {
        assert!(is_malformed(&stored(), place, byte), "{what}");
        assert!(is_malformed(&stored_payment(), place, byte), "{what}, with a workflow");
    }
}

#[test]
fn every_part_of_fifteen_without_a_workflow() {
    let wrong = [
        ("permissions", 0, 4),
        ("permissions of the last role", 127, 128),
        ("a transition", 388, 1),
        ("the last transition", 579, 1),
        ("a final state", 580, 1),
        ("states above 16", 582, 17),
        ("transitions", 583, 1),
        ("the present state", 588, 1),
        ("the present state, high byte", 591, 1),
    ];
    for (what, place, byte) in wrong {
        assert!(is_malformed(&stored(), place, byte), "{what}");
    }
    assert!(
        !is_malformed(&stored(), 582, 1),
        "a workflow of one state, and roles that give nothing"
    );
}

#[test]
fn every_part_of_fifteen_with_a_workflow() {
    let payment = stored_payment();
    assert!(!is_malformed(&payment, 0, 255), "a role may give any actions");
    assert!(!is_malformed(&payment, 23, 255), "up to 63");
    assert!(!is_malformed(&payment, 580, 0), "no final state");
    let wrong = [
        ("permissions of a role that is not declared", 24, 1),
        ("permissions of the last role", 127, 128),
        ("a state that is not declared", 388, 5),
        ("an action above 63", 389, 64),
        ("a next state that is not declared", 390, 5),
        ("two transitions with the same state and action", 398, 3),
        ("an unused transition", 409, 1),
        ("the last transition", 579, 1),
        ("a final state that is not declared", 580, 1 << 5),
        ("the last final state", 581, 128),
        ("fewer states", 582, 4),
        ("states above 16", 582, 17),
        ("no state", 582, 0),
        ("fewer transitions", 583, 6),
        ("more transitions, the last two alike", 583, 9),
        ("transitions above the array", 583, 65),
        ("a present state that is not declared", 588, 5),
        ("a present state, high byte", 591, 1),
    ];
    for (what, place, byte) in wrong {
        assert!(is_malformed(&payment, place, byte), "{what}");
    }
    for state in 0..5 {
        assert!(!is_malformed(&payment, 588, state), "state {state} need not be reached by a run");
    }
}

#[test]
fn every_byte_is_kept() {
    let bytes: [u8; Monitor::BYTES] = std::array::from_fn(|place| (place * 7 + 3) as u8);
    assert_eq!(Monitor::from_bytes(&bytes).to_bytes(), bytes);
}

#[test]
fn every_mark_but_0_is_closed() {
    let mut workspace = Workspace::new();
    for mark in 1..=u8::MAX {
        let mut bytes = stored();
        bytes[586..588].copy_from_slice(&[mark, b'd']);
        let mut monitor = Monitor::reload(LAYOUT, &bytes).expect("it is well formed");
        assert!(monitor.is_closed());
        assert_eq!(monitor.status(), Ok(Status::Closed));
        assert_eq!(monitor.enabled(0, &mut workspace).map(Users::is_empty), Ok(true));
        assert_eq!(monitor.close(), Err(Refusal::Closed));
        assert_eq!(monitor.to_bytes(), bytes);
    }
}

#[test]
fn every_mark_with_every_letter() {
    let (none, two) = (open_l().to_bytes(), stored());
    for pair in 0..=u16::MAX {
        let [mark, letter] = pair.to_le_bytes();
        let status = |stored: &[u8; Monitor::BYTES]| {
            let mut bytes = *stored;
            bytes[586..588].copy_from_slice(&[mark, letter]);
            Monitor::from_bytes(&bytes).status().map(|status| status.letter() as u8)
        };
        let closed = mark != 0 && letter == b'd';
        let open = mark == 0 && letter == b'o';
        let complete = mark == 0 && letter == b'c';
        let told = |well: bool| if well { Ok(letter) } else { Err(Refusal::Monitor) };
        assert_eq!(status(&two), told(closed || open || complete), "mark {mark}, {letter}");
        assert_eq!(status(&none), told(closed || open), "mark {mark}, {letter}, no action");
    }
}

#[test]
fn any_bytes_are_answered() {
    let mut workspace = Workspace::new();
    let mut state = 1u32;
    for turn in 0..4000 {
        let mut bytes = if turn % 2 == 0 { stored() } else { stored_payment() };
        for _ in 0..3 {
            state = state.wrapping_mul(1664525).wrapping_add(1013904223);
            bytes[(state >> 8) as usize % Monitor::BYTES] = (state >> 24) as u8;
        }
        let mut monitor = Monitor::from_bytes(&bytes);
        assert!(monitor.policy().len() <= 31 && monitor.actions().len() <= 12);
        assert!(monitor.user_roles().len() <= 16 && monitor.permissions().len() <= 16);
        assert!(monitor.transitions().len() <= 64);
        let status = monitor.status();
        let users = monitor.enabled(5, &mut workspace);
        let event = monitor.event(Event::Action { user: 0, number: 5 }, &mut workspace);
        assert_eq!(status == Err(Refusal::Monitor), event == Err(Refusal::Monitor));
        assert_eq!(users.map(|users| users.contains(0)).unwrap_or(false), event.is_ok());
        assert_eq!(users.err(), status.err());
    }
}
