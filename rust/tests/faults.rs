//! The place of a policy's fault, from every call that reads a policy, and that nothing else has one.

mod common;

use common::{open_l, POLICY_F};
use oskhrein::raw::{self, Calls};
use oskhrein::{normal_form, satisfies, write_text, Event, Monitor, Refusal, Workspace};
use oskhrein::{LONGEST_TEXT, MAX_WORDS};

const EVERYONE: u32 = 0x01000000;
const NOT: u32 = 0x04000000;
const PLUS: u32 = 0x05000000;
const BOTH: u32 = 0x07000000;
const TOGETHER: u32 = 0x08000000;

/// Words that are bad where two users and two roles are declared: of no kind, with a bit that no word
/// has, an operator with an operand, an undeclared role, an undeclared user, the empty set.
const BAD: [u32; 7] = [0, 0x0a000000, 0x01010000, 0x07000001, 0x02000002, 0x03000004, 0x03000000];

/// The longest policy: both, everyone, both, everyone, and so on to the last everyone.
fn longest() -> [u32; MAX_WORDS] {
    std::array::from_fn(|place| if place % 2 == 0 && place < 30 { BOTH } else { EVERYONE })
}

/// The longest policy with other words from this place on.
fn with(place: usize, words: &[u32]) -> [u32; MAX_WORDS] {
    let mut policy = longest();
    policy[place..place + words.len()].copy_from_slice(words);
    policy
}

/// How a policy is refused, with two users and two roles. All calls must agree.
fn refused(policy: &[u32]) -> Refusal {
    let mut workspace = Workspace::new();
    let refusals = [
        Monitor::open(2, 2, policy, &[1, 2]).err(),
        satisfies(2, 2, policy, &[1, 2], &[0; 16], &mut workspace).err(),
        normal_form(2, 2, policy, &mut [0; MAX_WORDS]).err(),
        write_text(2, 2, policy, &mut [0; LONGEST_TEXT]).err(),
    ];
    assert!(refusals.iter().all(|own| *own == refusals[0]), "{refusals:?} of {policy:08x?}");
    refusals[0].unwrap_or_else(|| panic!("{policy:08x?} is accepted"))
}

#[test]
fn one_is_at_0() {
    for policy in [&[][..], &[EVERYONE; 32], &[0x0a000000; 100]] {
        assert_eq!(refused(policy), Refusal::WordCount);
        assert_eq!(refused(policy).place(), Some(0));
    }
}

#[test]
fn two_is_at_the_first_bad_word() {
    for bad in BAD {
        for place in 0..MAX_WORDS {
            assert_eq!(refused(&with(place, &[bad])), Refusal::Word { place });
        }
        assert_eq!(refused(&[bad]), Refusal::Word { place: 0 });
        assert_eq!(refused(&[NOT, EVERYONE, bad]), Refusal::Word { place: 2 });
    }
}

#[test]
fn what_stands_behind_a_bad_word_plays_no_part() {
    for place in 0..MAX_WORDS {
        for end in place + 1..=MAX_WORDS {
            let mut policy = [0x0b000000; MAX_WORDS];
            policy[..place].copy_from_slice(&longest()[..place]);
            assert_eq!(refused(&policy[..end]), Refusal::Word { place });
        }
    }
}

#[test]
fn three_is_at_the_first_word_left_over() {
    assert_eq!(refused(&[EVERYONE, EVERYONE]), Refusal::Term { place: 1 });
    assert_eq!(refused(&[TOGETHER, EVERYONE, EVERYONE, NOT, EVERYONE]), Refusal::Term { place: 3 });
    assert_eq!(refused(&[TOGETHER, EVERYONE, EVERYONE, NOT]), Refusal::Term { place: 3 });
    assert_eq!(refused(&with(28, &[NOT])), Refusal::Term { place: 30 });
    assert_eq!(refused(&with(0, &[EVERYONE])), Refusal::Term { place: 1 });
}

#[test]
fn three_is_the_word_count_where_the_words_run_out() {
    for count in 1..MAX_WORDS {
        assert_eq!(refused(&longest()[..count]), Refusal::Term { place: count });
    }
    assert_eq!(refused(&with(30, &[NOT])), Refusal::Term { place: 31 });
    assert_eq!(refused(&[NOT; MAX_WORDS]), Refusal::Term { place: 31 });
}

#[test]
fn four_is_at_the_first_not_or_plus_over_no_unit_term() {
    for operator in [NOT, PLUS] {
        assert_eq!(refused(&[operator, PLUS, EVERYONE]), Refusal::Unit { place: 0 });
        assert_eq!(refused(&with(28, &[operator, PLUS])), Refusal::Unit { place: 28 });
        let side = [TOGETHER, NOT, EVERYONE, operator, TOGETHER, EVERYONE, EVERYONE];
        assert_eq!(refused(&side), Refusal::Unit { place: 3 });
        let two = [TOGETHER, BOTH, EVERYONE, operator, PLUS, EVERYONE, PLUS, PLUS, EVERYONE];
        assert_eq!(refused(&two), Refusal::Unit { place: 3 });
    }
    assert_eq!(refused(&[NOT, NOT, BOTH, EVERYONE, PLUS, EVERYONE]), Refusal::Unit { place: 0 });
}

#[test]
fn two_comes_before_three_and_three_before_four() {
    assert_eq!(refused(&[EVERYONE, EVERYONE, 0]), Refusal::Word { place: 2 });
    assert_eq!(refused(&[NOT, PLUS, 0]), Refusal::Word { place: 2 });
    assert_eq!(refused(&[NOT, PLUS, EVERYONE, EVERYONE]), Refusal::Term { place: 3 });
    assert_eq!(refused(&[TOGETHER, NOT, PLUS, EVERYONE]), Refusal::Term { place: 4 });
}

#[test]
fn a_fault_prints_its_place() {
    let told = |policy: &[u32]| refused(policy).to_string();
    assert_eq!(told(&[]), "1 at word 0: the policy has no word, or more than 31");
    assert_eq!(
        told(&with(30, &[0x02000002])),
        "2 at word 30: this word is not in the layout, names a role or user that is not declared, \
         or is an empty set"
    );
    assert_eq!(
        told(&[NOT]),
        "3 at word 1: the words are not exactly one term: this one is left over, or they run out here"
    );
    assert_eq!(
        told(&[BOTH, NOT, PLUS, EVERYONE, EVERYONE]),
        "4 at word 1: this not or plus stands over a term that is no unit term: it has a plus, \
         together or apart in it"
    );
}

/// A refusal that must have no place.
fn without_place<T: std::fmt::Debug>(answer: Result<T, Refusal>, number: u8) {
    let refusal = answer.expect_err("it is refused");
    assert_eq!((refusal.number(), refusal.place()), (number, None));
    assert!(!refusal.to_string().contains(" at word "), "{refusal}");
}

#[test]
fn no_other_refusal_has_a_place() {
    let (bad, good, counts) = ([0], [PLUS, EVERYONE], [13; 16]);
    let mut workspace = Workspace::new();
    without_place(Monitor::open(0, 2, &bad, &[]), 5);
    without_place(normal_form(2, 17, &bad, &mut []), 5);
    without_place(Monitor::open(2, 2, &good, &[1]), 6);
    without_place(Monitor::open_bytes(2, 2, &good, &[1, 2], &[0; 16], &[]), 19);
    without_place(satisfies(2, 2, &good, &[1, 4], &counts, &mut workspace), 6);
    without_place(satisfies(2, 2, &good, &[1, 2], &counts, &mut workspace), 7);
    without_place(satisfies(16, 2, &good, &[1; 16], &counts, &mut workspace), 8);
    without_place(normal_form(3, 3, &POLICY_F, &mut [0; 9]), 13);
    without_place(write_text(3, 3, &POLICY_F, &mut [0; 9]), 13);
    let mut monitor = open_l();
    without_place(monitor.event_word(0, &mut workspace), 7);
    without_place(monitor.event(Event::Action { user: 2, number: 0 }, &mut workspace), 9);
    without_place(monitor.close(), 11);
}

#[test]
fn fifteen_has_no_place_though_a_policy_be_its_cause() {
    let mut workspace = Workspace::new();
    for (at, word) in [(0, 0), (9, 0x02000003), (9, NOT), (9, PLUS)] {
        let mut raw = *open_l().as_raw();
        raw.instance.policy[at] = word;
        let mut monitor = Monitor::from_raw(raw);
        without_place(monitor.close(), 15);
        without_place(monitor.status(), 15);
        without_place(monitor.enabled(0, &mut workspace), 15);
    }
}

/// What the exported calls answer, and what they leave in the byte that is lent for the place:
/// opening, multiset test in a workspace of this length, normal form in an output of this length.
fn lent(policy: &[u32], rows: &[u16], workspace: usize, output: usize) -> [(u8, u8); 3] {
    let calls = Calls::LINKED;
    let mut places = [0xa5; 3];
    let [opened, tested, normal] = &mut places;
    let (mut monitor, mut space) = (raw::Monitor::BLANK, vec![0; workspace]);
    let numbers = [
        calls.open(&mut monitor, 2, 2, policy, rows, &[], &[], opened),
        calls.satisfies(2, 2, policy, rows, &[1; 16], &mut space, tested),
        calls.normal_form(2, 2, policy, &mut vec![0; output], normal),
    ];
    std::array::from_fn(|call| (numbers[call], places[call]))
}

#[test]
fn the_lent_byte_is_written_with_a_policys_fault_alone() {
    let kept = 0xa5;
    assert_eq!(lent(&[], &[], 8192, 0), [(1, 0); 3]);
    assert_eq!(lent(&[NOT, 0], &[], 8192, 0), [(2, 1); 3]);
    assert_eq!(lent(&[NOT], &[], 8192, 0), [(3, 1); 3]);
    assert_eq!(lent(&[PLUS, PLUS, EVERYONE], &[], 8192, 0), [(4, 0); 3]);
    assert_eq!(lent(&[NOT, 0], &[], 8191, 0), [(2, 1), (12, kept), (2, 1)]);
    assert_eq!(lent(&[EVERYONE], &[], 8192, 0), [(6, kept), (6, kept), (13, kept)]);
    assert_eq!(lent(&[EVERYONE], &[1, 2], 8192, 1), [(0, kept), (7, kept), (0, kept)]);
}
