//! The multiset test (01: bag test): the answer, the place of a policy's fault, and every word of the
//! workspace, the multiset's actions numbered by ascending user (02, E8).

use std::slice;

use oskhrein::raw::Calls;
use reference::generate::calls::{
    faulty_multisets, multiset_edges, multiset_input, ordered_multisets, MultisetInput,
};
use reference::generate::Random;
use reference::monitor::Taken;
use reference::multiset::{multiset, open_multiset};
use reference::place::place_of;
use reference::workspace::{expected, WORDS};

use super::{byte, Reader};
use crate::faults::Policy;
use crate::lent::Lent;
use crate::report::{answer_text, Seen};

/// The sizes of multisets that fill the workspace; each must occur, and from two on with words by
/// which the order of the actions is told from that by descending user.
const SIZES: [&str; 13] = [
    "no action",
    "1 action",
    "2 actions",
    "3 actions",
    "4 actions",
    "5 actions",
    "6 actions",
    "7 actions",
    "8 actions",
    "9 actions",
    "10 actions",
    "11 actions",
    "12 actions",
];

/// Another order of the actions.
type Reordering = fn(&mut Vec<Taken>);

/// Other orders; some multiset must have words by which its own is told from each.
const ORDERS: [(&str, Reordering); 3] = [
    ("not by descending user", |actions| actions.reverse()),
    ("not by turns", take_turns),
    ("not by roles", |actions| actions.sort_by(|one, other| one.held.cmp(&other.held))),
];

/// Each user's first action, then each one's second, and so on.
fn take_turns(actions: &mut Vec<Taken>) {
    let turn = |at: usize| actions[..at].iter().filter(|one| one.user == actions[at].user).count();
    let mut places: Vec<usize> = (0..actions.len()).collect();
    places.sort_by_key(|at| turn(*at));
    *actions = places.into_iter().map(|at| actions[at].clone()).collect();
}

/// Compares on the edges and on so many random multisets.
pub fn compare(library: &Calls, seed: u64, count: usize) -> (Reader, Seen) {
    let mut reader = Reader::new("satisfies", &[1, 2, 3, 4, 5, 6, 7, 8, 12, b'n', b'y']);
    let mut kinds = Seen::kinds("multisets", SIZES.into_iter().chain(ORDERS.map(|(name, _)| name)));
    let edges = multiset_edges().into_iter().map(|(name, input)| (name.to_string(), input));
    for (name, input) in edges.chain(faulty_multisets()).chain(ordered_multisets()) {
        check(&mut reader, library, &name, &input);
        count_kinds(&mut kinds, &input);
    }
    let mut random = Random::new(seed);
    for turn in 0..count {
        if reader.call.group.is_enough() {
            break;
        }
        let input = multiset_input(&mut random);
        check(&mut reader, library, &format!("random {turn} of seed {seed}"), &input);
        count_kinds(&mut kinds, &input);
    }
    (reader, kinds)
}

/// One multiset.
fn check(reader: &mut Reader, library: &Calls, label: &str, input: &MultisetInput) {
    let MultisetInput { users, roles, words, user_roles, counts, workspace } = input;
    let (users, roles) = (*users, *roles);
    let mut expected = Lent::new(*workspace);
    let answered = multiset(users, roles, words, user_roles, counts, expected.words());
    let place = answered.err().and_then(|code| place_of(code, users, roles, words));
    let expected_answer = byte(answered.map(|yes| if yes { b'y' } else { b'n' }));
    let (mut got, mut lent) = (Lent::new(*workspace), reader.lent_byte());
    let (space, byte) = (got.words(), lent.byte());
    let answer =
        library.satisfies(users as u8, roles as u8, words, user_roles, counts, space, byte);
    let same = answer == expected_answer && got == expected && lent.holds(place);
    reader.check(Policy { users, roles, words }, answer, same, || {
        let (expected_answer, answer) = (answer_text(expected_answer), answer_text(answer));
        let (first, place) = (expected.first_difference(&got), lent.against(place));
        format!(
            "{label}\n  (hex) {input:x?}\n  expected {expected_answer}, got {answer}\n{place}
  first other workspace word (place, expected, got): {first:x?}"
        )
    });
}

/// Counts the size of a multiset that fills the workspace, and the orders that its words tell from
/// its own. The words of single actions are enough to tell them.
fn count_kinds(kinds: &mut Seen, input: &MultisetInput) {
    let MultisetInput { users, roles, words, user_roles, counts, workspace } = input;
    let opened = open_multiset(*users, *roles, words, user_roles, counts);
    let (Ok((policy, actions)), true) = (opened, *workspace >= WORDS) else {
        return;
    };
    let singles = |actions: &[Taken]| -> Vec<u32> {
        actions.iter().map(|action| expected(&policy, slice::from_ref(action))[1]).collect()
    };
    let own = singles(&actions);
    let told = ORDERS.map(|(name, reorder)| {
        let mut others = actions.clone();
        reorder(&mut others);
        (name, singles(&others) != own)
    });
    told.iter().filter(|(_, told)| *told).for_each(|(name, _)| kinds.count_kind(name));
    if actions.len() < 2 || told[0].1 {
        kinds.count_kind(SIZES[actions.len()]);
    }
}
