//! The status that an instance keeps (02, E6): raw instances with each letter, where it is allowed and
//! where it is not, words of the kind of a close and of other kinds with workspaces of every length,
//! and runs in which the letter comes and goes.

use super::cases;
use super::instances::{self, NamedInstance};
use super::terms::{self, Style};
use super::Random;
use crate::casefile::Case;
use crate::examples::{action, grant, revoke, CLOSE};
use crate::policy::{Operator, Term};
use crate::raw::{RawAction, RawInstance, CLOSED_MARKS};
use crate::secure::Transition;

/// Letters that are none of the three, neighbours of the three and ones that differ from one of them in
/// a single bit among them.
const NO_LETTERS: [u8; 14] =
    [0, 1, b'b', b'e', b'n', b'p', b'x', b'0', b'O', b'C', b'D', b'd' | 128, 254, 255];

/// The instance with a letter that its mark and its actions allow: where there are two, as often the
/// one that the actions do not say.
pub fn lettered(random: &mut Random, raw: RawInstance) -> RawInstance {
    let defined = raw.with_defined_letter();
    let either = raw.closed == 0 && raw.count > 0;
    defined.with_letter(if either { random.pick(b"oc") } else { defined.letter })
}

/// The instance with each letter that its mark and its actions allow; the names say which.
pub fn each_letter((name, raw): NamedInstance) -> Vec<NamedInstance> {
    let defined = raw.with_defined_letter();
    let letters = match (raw.closed, raw.count) {
        (0, 1..) => vec![b'o', b'c'],
        _ => vec![defined.letter],
    };
    let with = |letter: u8| {
        let is = if letter == defined.letter { "as defined" } else { "not as defined" };
        (format!("{name}, {} {is}", char::from(letter)), defined.with_letter(letter))
    };
    letters.into_iter().map(with).collect()
}

/// An instance with this letter and this mark, and with its actions or with none.
fn altered(raw: RawInstance, letter: u8, closed: u8, acted: bool) -> NamedInstance {
    let mut raw = RawInstance { letter, closed, ..raw };
    if !acted {
        (raw.count, raw.actions) = (0, RawInstance::BLANK.actions);
    }
    (format!("letter {letter}, mark {closed}, {} actions", raw.count), raw)
}

/// Letters with marks that do not go with them, whatever is taken.
fn mismatched() -> Vec<(u8, u8)> {
    let none = NO_LETTERS.iter().flat_map(|letter| [(*letter, 0), (*letter, 1)]);
    let marked = CLOSED_MARKS.iter().flat_map(|mark| [(b'o', *mark), (b'c', *mark)]);
    none.chain(marked).chain([(b'd', 0)]).collect()
}

/// Instances that are malformed by their letter alone.
pub fn malformed(random: &mut Random) -> Vec<NamedInstance> {
    let mut found = vec![altered(instances::some_roomy(random), b'c', 0, false)];
    for (letter, closed) in mismatched() {
        for acted in [true, false] {
            found.push(altered(instances::some_roomy(random), letter, closed, acted));
        }
    }
    found
}

/// Role 0 apart from role 1, for three users, of whom the last has no role; nothing is taken.
fn two_apart() -> RawInstance {
    let words = Term::join(Operator::Apart, Term::Role(0), Term::Role(1)).words();
    RawInstance::open(3, 2, &words, &[1, 2, 0]).1
}

/// The instance under permissions for every action and a workflow of one transition, in this state:
/// the second one is final.
fn in_state(mut raw: RawInstance, state: usize) -> RawInstance {
    raw.permissions[..raw.roles].fill(u64::MAX);
    raw.transitions[0] = Transition::new([0, 0, 1]);
    (raw.states, raw.final_states, raw.arrows, raw.state) = (2, 2, 1, state);
    raw
}

/// What may be taken: nothing, one of two actions, both, two that are not possible together.
fn taken() -> [(&'static str, Vec<RawAction>); 4] {
    let [first, second] = [(0, 0b010), (1, 0b100)].map(|(user, met)| RawAction { user, met });
    [
        ("nothing taken", vec![]),
        ("one action", vec![first]),
        ("two actions", vec![first, second]),
        ("two that are not possible", vec![first, first]),
    ]
}

/// Well-formed instances with each letter: open and with several marks, without a workflow, in a state
/// that is final and in one that is not.
pub fn well_formed() -> Vec<NamedInstance> {
    let mut found = Vec::new();
    for (name, actions) in taken() {
        let mut raw = two_apart();
        raw.count = actions.len();
        raw.actions[..raw.count].copy_from_slice(&actions);
        let placed = [
            ("no workflow", raw),
            ("no final state", in_state(raw, 0)),
            ("a final state", in_state(raw, 1)),
        ];
        for (place, raw) in placed {
            for closed in [0, 1, 2, 255] {
                let name = format!("{name}, {place}, mark {closed}");
                found.extend(each_letter((name, RawInstance { closed, ..raw })));
            }
        }
    }
    found
}

/// Words of kind 4: a close, and others out of layout in each of their three bytes.
pub const CLOSE_WORDS: [u32; 6] =
    [CLOSE, CLOSE | 1, CLOSE | 0x8000, CLOSE | 1 << 16, CLOSE | 1 << 23, CLOSE | 0xffffff];

/// Words of other kinds: in layout, out of it, and of kinds that there are not, some of which share bits
/// with kind 4 or have a 4 elsewhere.
pub const OTHER_WORDS: [u32; 17] = [
    0x01000000, 0x01000100, 0x01000f00, 0x01010000, 0x02000000, 0x02000004, 0x03000000, 0x03000010,
    0, 4, 0x00040400, 0x05000000, 0x06000000, 0x0c000000, 0x44000000, 0x84000000, 0xffffffff,
];

/// A random word of kind 4, in layout more often than not.
pub fn close_word(random: &mut Random) -> u32 {
    match random.below(10) {
        0..=5 => CLOSE,
        6 | 7 => CLOSE | 1 << random.below(24),
        _ => CLOSE | random.word() >> 8,
    }
}

/// A case in which users act and then gain or lose roles, so that today's roles would often say another
/// letter; at times a close follows.
pub fn case(random: &mut Random) -> Case {
    let (users, roles) = (random.between(2, 4), random.between(1, 3));
    let style = Style { users, roles, lean: 60 };
    let [first, second] = [1, 3].map(|operands| terms::denying(random, style, operands));
    let policy = match random.below(3) {
        0 => Term::plus(terms::unit(random, style, 3)),
        _ => Term::join(Operator::Either, first, second),
    };
    let mut events = Vec::new();
    for _ in 0..random.between(2, 9) {
        let (user, role) = (random.below(users) as u32, random.below(roles) as u32);
        events.extend([action(user), random.pick(&[grant(user, role), revoke(user, role)])]);
        if random.percent(25) {
            events.push(close_word(random));
        }
    }
    let user_roles = cases::user_roles(random, users, roles);
    let policy = policy.words();
    Case { users: users as u8, roles: roles as u8, policy, user_roles, events, given: None }
}

#[cfg(test)]
mod tests {
    use super::*;
    use crate::monitor::{Monitor, Taken};
    use std::collections::BTreeSet;

    #[test]
    fn letters_are_allowed_or_not_as_said() {
        let mut random = Random::new(41);
        for (name, raw) in malformed(&mut random) {
            assert_eq!(raw.status(), Err(15), "{name}");
            assert!(raw.with_defined_letter().status().is_ok(), "{name}: nothing else is wrong");
        }
        for (name, raw) in well_formed() {
            assert_eq!(raw.status(), Ok(char::from(raw.letter)), "{name}");
            let same = raw.with_defined_letter() == raw;
            assert_eq!(same, !name.ends_with("not as defined"), "{name}");
        }
    }

    #[test]
    fn names_are_all_different() {
        let names: BTreeSet<String> = well_formed().into_iter().map(|(name, _)| name).collect();
        assert_eq!(names.len(), well_formed().len());
    }

    #[test]
    fn closes_follow_the_letter_and_the_state() {
        for (name, mut raw) in well_formed() {
            let code = match raw.letter {
                b'd' => 10,
                b'c' if !name.contains("no final state") => 0,
                _ => 11,
            };
            assert_eq!(raw.event(CLOSE, &mut []), code, "{name}");
        }
    }

    #[test]
    fn runs_keep_letters_that_todays_roles_would_not_say() {
        let mut random = Random::new(42);
        let mut kept = BTreeSet::new();
        for _ in 0..300 {
            let case = case(&mut random);
            let mut monitor: Monitor<Taken> = case.open().expect("it opens");
            for word in &case.events {
                monitor.step(*word);
                let (letter, today) = (monitor.status(), monitor.by_todays_roles());
                assert_eq!(letter, monitor.defined(), "{case:x?}");
                kept.insert((letter, today));
            }
        }
        assert!(kept.is_superset(&[('o', 'c'), ('c', 'o'), ('d', 'd')].into()), "{kept:?}");
    }
}
