//! Random cases and damaged case files.

use super::terms::{self, Style};
use super::{faults, secure, spreading, statuses, NamedFile, Random};
use crate::casefile::{write_case, Case};
use crate::examples::{action, grant, numbered, revoke, CLOSE};
use crate::policy::{read_term, Operator, Term, MOST_WORDS};

/// The kinds of random case files, in turn.
const KINDS: [&str; 18] = [
    "plain",
    "leaning",
    "small",
    "chain",
    "equal",
    "rich",
    "leavers",
    "damaged",
    "misworded",
    "faulty",
    "wide",
    "secure",
    "faulty workflow",
    "secure, damaged",
    "secure, equal",
    "changing roles",
    "spread",
    "secure, spread",
];

/// A random case file of the kind whose turn it is; its name says the kind.
pub fn random_file(random: &mut Random, turn: usize) -> NamedFile {
    let kind = KINDS[turn % KINDS.len()];
    let bytes = write_case(&random_case(random, kind));
    let bytes = match kind {
        "damaged" | "secure, damaged" => damaged(random, &bytes),
        _ => bytes,
    };
    (kind.to_string(), bytes)
}

/// A random case of this kind; damage is done to its bytes.
fn random_case(random: &mut Random, kind: &str) -> Case {
    match kind {
        "plain" => case(random, 4, 4, 50),
        "leaning" => case(random, 5, 3, 90),
        "small" => case(random, 2, 2, 60),
        "chain" => chain_case(random),
        "rich" => rich_case(random),
        "leavers" => leavers_case(random),
        "damaged" => case(random, 4, 4, 60),
        "misworded" => misworded(random),
        "faulty" => faulty(random),
        "changing roles" => statuses::case(random),
        "secure" | "secure, damaged" => secure::case(random),
        "faulty workflow" => secure::faulty_case(random),
        "equal" | "secure, equal" => {
            let plain = kind == "equal";
            let base = if plain { case(random, 4, 3, 70) } else { secure::case(random) };
            equal_case(random, &base)
        }
        "spread" | "secure, spread" => {
            let base = choosing_case(random);
            let plain = kind == "spread";
            let base = if plain { base } else { secure::under_workflow(random, base) };
            spread_case(random, &base)
        }
        _ => case(random, 16, 16, 70),
    }
}

/// A random number that is small in most cases and at most this.
fn mostly_small(random: &mut Random, most: usize) -> usize {
    let bound = random.between(1, most);
    random.between(1, bound)
}

/// Random rows of roles.
pub fn user_roles(random: &mut Random, users: usize, roles: usize) -> Vec<u16> {
    let declared = ((1u32 << roles) - 1) as u16;
    let share = random.pick(&[1, 2, 3]);
    let row = |random: &mut Random| {
        let mut row = random.word() as u16;
        for _ in 1..share {
            row &= random.word() as u16;
        }
        if random.percent(40) {
            1 << random.below(roles)
        } else {
            row & declared
        }
    };
    (0..users).map(|_| row(random)).collect()
}

/// A random event word; in most cases an action by a declared user.
pub fn event(random: &mut Random, users: usize, roles: usize) -> u32 {
    let user = random.below(users) as u32;
    let role = random.below(roles) as u32;
    match random.below(100) {
        0..=30 => numbered(user, random.pick(&secure::NUMBERS)),
        31..=64 => action(user) | random.word() & 0xff,
        65..=78 => grant(user, role),
        79..=88 => revoke(user, role),
        89..=96 => CLOSE,
        97 => random.word(),
        98 => action(user) ^ 1 << random.below(32),
        _ => grant(user, role) ^ 1 << random.below(32),
    }
}

/// A random case with at most so many users and roles whose policy leans so much on together and
/// apart.
pub fn case(random: &mut Random, most_users: usize, most_roles: usize, lean: usize) -> Case {
    let users = mostly_small(random, most_users).max(random.between(1, most_users));
    let roles = mostly_small(random, most_roles);
    let words = if random.percent(60) { random.between(1, 13) } else { random.between(1, 31) };
    let policy = terms::term(random, Style { users, roles, lean }, words).words();
    let user_roles = user_roles(random, users, roles);
    let count = random.pick(&[4, 8, 12, 16, 20, 30]);
    let events = (0..random.below(count + 1)).map(|_| event(random, users, roles)).collect();
    Case { users: users as u8, roles: roles as u8, policy, user_roles, events, given: None }
}

/// A random case whose policy is a long chain of one operator.
fn chain_case(random: &mut Random) -> Case {
    let mut case = case(random, 6, 3, 80);
    let style = Style { users: case.users.into(), roles: case.roles.into(), lean: 80 };
    let operator = random.pick(&Operator::ALL);
    let operands = random.between(2, 16);
    case.policy = terms::chain(random, style, operator, operands).words();
    case
}

/// A random case in which many actions are taken: users hold most roles and mostly act.
pub fn rich_case(random: &mut Random) -> Case {
    let users = random.between(2, 6);
    let roles = random.between(1, 3);
    let operands = random.between(1, 9);
    let policy = terms::rich(random, Style { users, roles, lean: 80 }, operands);
    busy_case(random, users, roles, &policy)
}

/// As rich, but under a policy with places to spread or gather.
pub fn choosing_case(random: &mut Random) -> Case {
    let users = random.between(2, 5);
    let roles = random.between(1, 3);
    let most = random.pick(&[7, 11, 17, 23, MOST_WORDS]);
    let policy = spreading::term(random, Style { users, roles, lean: 80 }, most);
    busy_case(random, users, roles, &policy)
}

/// A random case under this policy: users hold most roles and mostly act.
fn busy_case(random: &mut Random, users: usize, roles: usize, policy: &Term) -> Case {
    let policy = policy.words();
    let declared = (1u16 << roles) - 1;
    let row = |random: &mut Random| (random.word() | random.word()) as u16 & declared;
    let user_roles = (0..users).map(|_| row(random)).collect();
    let act = |random: &mut Random| {
        if random.percent(75) {
            action(random.below(users) as u32)
        } else {
            event(random, users, roles)
        }
    };
    let events = (0..random.between(4, 24)).map(|_| act(random)).collect();
    Case { users: users as u8, roles: roles as u8, policy, user_roles, events, given: None }
}

/// A random case in which users come and go under a policy with a not in most operands: some lose
/// every role that they hold, and act all the same; some never hold one.
pub fn leavers_case(random: &mut Random) -> Case {
    let users = random.between(2, 5);
    let roles = random.between(1, 3);
    let operands = random.between(1, terms::MOST_DENIALS);
    let policy = terms::denying(random, Style { users, roles, lean: 80 }, operands).words();
    let user_roles = user_roles(random, users, roles);
    let mut events = Vec::new();
    for _ in 0..random.between(3, 12) {
        let user = random.below(users) as u32;
        match random.below(8) {
            0..=3 => events.push(action(user)),
            4 | 5 => {
                events.extend((0..roles as u32).map(|role| revoke(user, role)));
                events.push(action(user));
            }
            _ => events.push(event(random, users, roles)),
        }
    }
    if random.percent(50) {
        events.push(CLOSE);
    }
    Case { users: users as u8, roles: roles as u8, policy, user_roles, events, given: None }
}

/// The term that a random case has for its policy.
pub(super) fn term_of(case: &Case) -> Term {
    read_term(case.users.into(), case.roles.into(), &case.policy)
        .expect("a random case has an accepted policy")
}

/// The same case with an equal form of its policy.
pub fn equal_case(random: &mut Random, case: &Case) -> Case {
    let steps = random.below(2 * case.policy.len() + 1);
    let equal = terms::equal_form(random, &term_of(case), steps);
    Case { policy: equal.words(), ..case.clone() }
}

/// The same case with another form of its policy by spreading or gathering, which may have passed 31
/// words.
pub fn spread_case(random: &mut Random, case: &Case) -> Case {
    let steps = random.between(1, 8);
    let form = spreading::other_form(random, &term_of(case), steps);
    Case { policy: form.term.words(), ..case.clone() }
}

/// A random case with some words, rows or counts damaged.
pub fn misworded(random: &mut Random) -> Case {
    let mut case = case(random, 4, 4, 60);
    for _ in 0..random.between(1, 2) {
        match random.below(9) {
            0 | 1 => {
                let place = random.below(case.policy.len());
                case.policy[place] = damaged_word(random, case.policy[place]);
            }
            2 => {
                let length = random.below(case.policy.len());
                case.policy.truncate(length.max(1));
            }
            3 => case.policy.push(random.pick(&[0x01000000, 0x05000000, 0x02000000, 0])),
            4 => case.user_roles.push(0),
            5 => case.user_roles[0] ^= 1 << random.below(16),
            6 | 7 => {
                let place = random.below(case.policy.len());
                case.policy.insert(place, random.pick(&[0x04000000, 0x05000000]));
            }
            _ if random.percent(50) => case.users = random.pick(&[0, 1, 2, 5, 16, 17, 255]),
            _ => case.roles = random.pick(&[0, 1, 2, 5, 16, 17, 255]),
        }
    }
    case
}

/// A random case whose policy is refused by 1 to 4; in some also the counts or the rows.
pub fn faulty(random: &mut Random) -> Case {
    let mut case = case(random, 16, 16, 50);
    let style = Style { users: case.users.into(), roles: case.roles.into(), lean: 50 };
    case.policy = faults::random_policy(random, style).words;
    match random.below(20) {
        0 => case.users = random.pick(&[0, 17, 255]),
        1 => case.roles = random.pick(&[0, 17, 255]),
        2 => case.user_roles.push(0),
        _ => {}
    }
    case
}

/// A policy word with its kind, operand or zero bits altered.
pub fn damaged_word(random: &mut Random, word: u32) -> u32 {
    match random.below(4) {
        0 => word ^ 1 << random.below(32),
        1 => word & 0x00ffffff | (random.below(12) as u32) << 24,
        2 => word & 0xffff0000 | random.word() & 0xffff,
        _ => word | 1 << random.between(16, 23),
    }
}

/// A file with bytes flipped, cut off, added, or with its pairs changed.
pub fn damaged(random: &mut Random, bytes: &[u8]) -> Vec<u8> {
    let mut bytes = bytes.to_vec();
    for _ in 0..random.between(1, 3) {
        let place = random.below(bytes.len().max(1));
        match random.below(6) {
            _ if bytes.is_empty() => bytes.push(random.word() as u8),
            0 | 1 => bytes[place] ^= 1 << random.below(8),
            2 => bytes.truncate(place),
            3 => bytes.insert(place, random.word() as u8),
            4 => change_pair(random, &mut bytes),
            _ => {
                bytes.remove(place);
            }
        }
    }
    bytes
}

/// Changes one number of the pairs by a little.
fn change_pair(random: &mut Random, bytes: &mut [u8]) {
    let place = 2 * random.below(10);
    if place + 2 > bytes.len() {
        return;
    }
    let number = u16::from_le_bytes([bytes[place], bytes[place + 1]]);
    let by = random.pick(&[1u16, 2, 4, 0xffff, 0xfffe, 0xfffc, 256, 0x8000]);
    bytes[place..place + 2].copy_from_slice(&number.wrapping_add(by).to_le_bytes());
}
