//! Raw instances: well formed, and malformed in each way that number 15 lists.

use super::cases::{event, user_roles};
use super::secure;
use super::statuses::{self, each_letter, lettered};
use super::terms::{self, Style};
use super::Random;
use crate::examples::{action, numbered};
use crate::policy::{Operator, Term};
use crate::raw::{RawAction, RawInstance, CLOSED_MARKS, NARROW_BITS, WIDE_BITS};
use crate::secure::{Given, Secure, Transition};

/// A raw instance with a name that says what is odd about it.
pub type NamedInstance = (String, RawInstance);

/// A well-formed raw instance with this policy; its noted bits, its closed mark and its letter are
/// random, so that in most cases no run reaches it.
pub fn with_policy(
    random: &mut Random,
    style: Style,
    policy: &Term,
    most_actions: usize,
) -> RawInstance {
    let mut raw = RawInstance { users: style.users, roles: style.roles, ..RawInstance::BLANK };
    let words = policy.words();
    raw.length = words.len();
    raw.policy[..words.len()].copy_from_slice(&words);
    let rows = user_roles(random, style.users, style.roles);
    raw.user_roles[..style.users].copy_from_slice(&rows);
    raw.count = random.below(most_actions + 1);
    let mask = policy.unit_mask();
    let thin = random.percent(50);
    for action in &mut raw.actions[..raw.count] {
        let bits = if thin { random.word() } else { random.word() | random.word() };
        *action = RawAction { user: random.below(style.users), met: bits & mask };
    }
    raw.closed = if random.percent(15) { random.pick(&CLOSED_MARKS) } else { 0 };
    lettered(random, raw)
}

/// A random well-formed raw instance with at most this many policy words and actions.
pub fn well_formed(random: &mut Random, most_words: usize, most_actions: usize) -> RawInstance {
    let most = random.pick(&[2, 3, 5, 16]);
    let users = random.between(1, most);
    let style = Style { users, roles: random.between(1, most), lean: random.pick(&[30, 60, 90]) };
    let words = random.between(1, most_words);
    let policy = terms::term(random, style, words);
    let raw = with_policy(random, style, &policy, most_actions);
    if random.percent(50) {
        ordered(random, raw)
    } else {
        raw
    }
}

/// The instance under random permissions and a random workflow, in any of its states.
pub fn ordered(random: &mut Random, mut raw: RawInstance) -> RawInstance {
    let Given { permissions, workflow } = secure::given(random, raw.roles);
    let read = Secure::read(raw.roles, &permissions, &workflow);
    read.iter().flatten().for_each(|secure| raw.keep_secure(secure));
    raw.state = random.below(raw.states.into());
    raw
}

/// A row of four roles for each of sixteen users, no two the same; the last user holds none.
pub const ALL_DIFFERENT: [u16; 16] = [15, 14, 13, 12, 11, 10, 9, 8, 7, 6, 5, 4, 3, 2, 1, 0];

/// A raw instance with this policy of four roles, opened; the rows of roles go round among the
/// users.
fn opened(users: usize, policy: &Term, rows: &[u16]) -> RawInstance {
    let user_roles: Vec<u16> = rows.iter().copied().cycle().take(users).collect();
    RawInstance::open(users, 4, &policy.words(), &user_roles).1
}

/// A raw instance as a run leaves it, with these rows of roles: a policy that many lists of actions
/// fit, in some cases with nots, and so many events, most of them actions.
pub fn grown(random: &mut Random, users: usize, rows: &[u16], events: usize) -> RawInstance {
    let style = Style { users, roles: 4, lean: 80 };
    let policy = if random.percent(30) {
        let operands = random.between(1, terms::MOST_DENIALS);
        terms::denying(random, style, operands)
    } else {
        let operands = random.between(1, 9);
        terms::rich(random, style, operands)
    };
    let mut raw = opened(users, &policy, rows);
    if random.percent(40) {
        raw = RawInstance { state: 0, ..ordered(random, raw) };
    }
    for _ in 0..events {
        let user = random.below(users) as u32;
        let number = number(random, &raw);
        raw.step(if random.percent(80) { numbered(user, number) } else { event(random, users, 4) });
    }
    raw
}

/// A number for an action: one that some transition has in the present state, or else any of the usual
/// ones.
pub fn number(random: &mut Random, raw: &RawInstance) -> u8 {
    let used = &raw.transitions[..raw.arrows.into()];
    let leaving: Vec<&Transition> =
        used.iter().filter(|arrow| usize::from(arrow.state) == raw.state).collect();
    match random.below(20) {
        0 => random.pick(&[64, 65, 128, 255]),
        1..=4 => random.pick(&secure::NUMBERS),
        _ if leaving.is_empty() => random.pick(&secure::NUMBERS),
        _ => random.pick(&leaving).action,
    }
}

/// Raw instances of one user and of sixteen, who are alike, of four kinds or all different, and who
/// act in turn until none, some or eleven actions are taken; the first user may always act.
pub fn acting_in_turn() -> Vec<NamedInstance> {
    let pair = Term::join(Operator::Apart, Term::Role(0), Term::Role(1));
    let others = Term::join(Operator::Either, Term::Role(2), Term::Role(3));
    let policy = Term::join(Operator::Together, pair, Term::plus(others));
    let rows: [&[u16]; 3] = [&[7], &[5, 0, 6, 12], &ALL_DIFFERENT];
    let mut found = Vec::new();
    for (users, rows) in [1, 16].into_iter().flat_map(|users| rows.map(|rows| (users, rows))) {
        for taken in [0, 1, 4, 11] {
            let mut raw = opened(users, &policy, rows);
            for user in (0..users as u32).cycle() {
                if raw.count == taken {
                    break;
                }
                raw.step(action(user));
            }
            found.push((format!("{users} users of {} kinds, {taken} actions", rows.len()), raw));
        }
    }
    found
}

/// Three users who are alike, of whom the last has acted: only the others may act now.
pub fn last_acted() -> NamedInstance {
    let policy = Term::join(Operator::Apart, Term::Role(0), Term::Role(0));
    let mut raw = opened(3, &policy, &[1]);
    raw.step(action(2));
    ("three users alike, the last of whom acted".to_string(), raw)
}

/// The instance with one bit of one field flipped, or with another mark or letter.
pub fn flipped(random: &mut Random, instance: RawInstance) -> RawInstance {
    let mut raw = instance;
    let wide = 1 << random.below(WIDE_BITS);
    let narrow = 1u8 << random.below(NARROW_BITS);
    match random.below(18) {
        0 => raw.users ^= wide,
        1 => raw.roles ^= wide,
        2 => raw.length ^= usize::from(narrow),
        3 => raw.count ^= usize::from(narrow),
        4 => raw.policy[random.below(31)] ^= 1 << random.below(32),
        5 => raw.user_roles[random.below(16)] ^= 1 << random.below(16),
        6 => raw.actions[random.below(12)].user ^= wide,
        7 => raw.actions[random.below(12)].met ^= 1 << random.below(32),
        8 => raw.permissions[random.below(16)] ^= 1 << random.below(64),
        9 => raw.states ^= narrow,
        10 => raw.final_states ^= 1 << random.below(16),
        11 => raw.arrows ^= narrow,
        12 => raw.state ^= wide,
        13 => {
            let arrow = &mut raw.transitions[random.below(64)];
            let mut bytes = arrow.bytes();
            bytes[random.below(3)] ^= 1 << random.below(8);
            *arrow = Transition::new(bytes);
        }
        14 => raw.letter ^= narrow,
        15 => raw.letter = random.pick(b"ocd"),
        16 => {
            raw.closed = other_mark(random, raw.closed);
            raw = lettered(random, raw);
        }
        _ => raw.closed = other_mark(random, raw.closed),
    }
    raw
}

/// The mark of an open instance for that of a closed one, and the reverse.
fn other_mark(random: &mut Random, mark: u8) -> u8 {
    if mark == 0 {
        random.pick(&CLOSED_MARKS)
    } else {
        0
    }
}

/// An instance that leaves room to be malformed in every way: some user, role, policy word, place
/// and row is not used, some action is taken, and the first word begins no unit term.
fn roomy(random: &mut Random) -> RawInstance {
    let style = Style { users: random.between(1, 15), roles: random.between(1, 15), lean: 60 };
    let words = random.between(1, 13);
    let side = terms::term(random, style, words);
    let operator = random.pick(&[Operator::Together, Operator::Apart]);
    let policy = Term::join(operator, side, Term::plus(Term::Everyone));
    loop {
        let raw = with_policy(random, style, &policy, 11);
        if raw.count > 0 {
            return raw;
        }
    }
}

/// A roomy instance with something altered.
fn with(random: &mut Random, name: &str, alter: impl Fn(&mut RawInstance)) -> NamedInstance {
    let mut raw = roomy(random);
    alter(&mut raw);
    (name.to_string(), raw)
}

/// Counts and policy lengths that the opening would refuse with 5 and 1.
fn malformed_counts(random: &mut Random) -> Vec<NamedInstance> {
    let mut found = Vec::new();
    for count in [0, 17, 255] {
        found.push(with(random, &format!("{count} users"), |raw| raw.users = count));
        found.push(with(random, &format!("{count} roles"), |raw| raw.roles = count));
    }
    for length in [0, 32, 255] {
        found.push(with(random, &format!("{length} policy words"), |raw| raw.length = length));
    }
    for bit in 8..WIDE_BITS {
        found.push(with(random, &format!("bit {bit} of users"), |raw| raw.users |= 1 << bit));
        found.push(with(random, &format!("bit {bit} of roles"), |raw| raw.roles |= 1 << bit));
    }
    let blank = |closed, letter| RawInstance { closed, letter, ..RawInstance::BLANK };
    found.push(("blank".to_string(), RawInstance::BLANK));
    found.push(("blank, status o".to_string(), blank(0, b'o')));
    found.push(("blank, closed".to_string(), blank(1, b'd')));
    found
}

/// Policy words that the opening would refuse with 2.
fn malformed_words(random: &mut Random) -> Vec<NamedInstance> {
    vec![
        with(random, "kind 0", |raw| raw.policy[0] = 0),
        with(random, "kind 10", |raw| raw.policy[0] = 0x0a000000),
        with(random, "bit 16 of a policy word", |raw| raw.policy[0] |= 1 << 16),
        with(random, "bit 23 of a policy word", |raw| raw.policy[raw.length - 1] |= 1 << 23),
        with(random, "operand of an operator", |raw| raw.policy[0] |= 1),
        with(random, "undeclared role in the policy", |raw| {
            raw.policy[raw.length - 1] = 0x02000000 | raw.roles as u32;
        }),
        with(random, "undeclared user in a set", |raw| {
            raw.policy[raw.length - 1] = 0x03000000 | 1 << raw.users;
        }),
        with(random, "empty set", |raw| raw.policy[raw.length - 1] = 0x03000000),
    ]
}

/// Policies that the opening would refuse with 3 and 4.
fn malformed_terms(random: &mut Random) -> Vec<NamedInstance> {
    vec![
        with(random, "a word too many", |raw| {
            raw.policy[raw.length] = 0x01000000;
            raw.length += 1;
        }),
        with(random, "a word too few", |raw| {
            raw.length -= 1;
            raw.policy[raw.length] = 0;
            raw.actions.iter_mut().for_each(|action| action.met = 0);
        }),
        with(random, "plus over plus", |raw| {
            raw.policy[raw.length - 1] = 0x05000000;
            raw.policy[raw.length] = 0x01000000;
            raw.length += 1;
        }),
        with(random, "not over together", |raw| {
            raw.policy.copy_within(0..30, 1);
            raw.policy[0] = 0x04000000;
            raw.length += 1;
            raw.actions.iter_mut().for_each(|action| action.met = 0);
        }),
    ]
}

/// Users of actions whose low byte is declared.
fn far_users(random: &mut Random) -> Vec<NamedInstance> {
    let far = |bit: usize| format!("bit {bit} of the user of an action");
    let bits = 8..WIDE_BITS;
    bits.map(|bit| with(random, &far(bit), |raw| raw.actions[0].user |= 1 << bit)).collect()
}

/// Malformed rows of roles, numbers of actions, users and noted bits.
fn malformed_actions(random: &mut Random) -> Vec<NamedInstance> {
    vec![
        with(random, "undeclared role of a user", |raw| {
            raw.user_roles[raw.users - 1] |= 1 << raw.roles;
        }),
        with(random, "role 15 of a user", |raw| raw.user_roles[0] |= 1 << 15),
        with(random, "13 actions", |raw| raw.count = 13),
        with(random, "255 actions", |raw| raw.count = 255),
        with(random, "undeclared user of an action", |raw| raw.actions[0].user = raw.users),
        with(random, "user 16 of an action", |raw| raw.actions[raw.count - 1].user = 16),
        with(random, "user 255 of an action", |raw| raw.actions[raw.count - 1].user = 255),
        with(random, "bit at an operator", |raw| raw.actions[0].met |= 1),
        with(random, "bit at a plus", |raw| {
            raw.actions[raw.count - 1].met |= 1 << (raw.length - 2);
        }),
        with(random, "bit past the policy", |raw| raw.actions[0].met |= 1 << raw.length),
        with(random, "bit 31", |raw| raw.actions[raw.count - 1].met |= 1 << 31),
    ]
}

/// Unused places, policy words and rows of roles that are not zero.
fn malformed_rest(random: &mut Random) -> Vec<NamedInstance> {
    vec![
        with(random, "user in the first unused place", |raw| raw.actions[raw.count].user = 1),
        with(random, "user in the last unused place", |raw| raw.actions[11].user = 1),
        with(random, "bits in an unused place", |raw| {
            raw.actions[raw.count].met = 1 << (raw.length - 1);
        }),
        with(random, "bits in the last unused place", |raw| raw.actions[11].met = 1),
        with(random, "first unused policy word", |raw| raw.policy[raw.length] = 0x01000000),
        with(random, "last unused policy word", |raw| raw.policy[30] = 1),
        with(random, "first unused row of roles", |raw| raw.user_roles[raw.users] = 1),
        with(random, "last unused row of roles", |raw| raw.user_roles[15] = 1 << 15),
    ]
}

/// The roomy instance under permissions and a workflow that leave room as well: four states, one of
/// them final, three transitions.
fn roomy_ordered(random: &mut Random) -> RawInstance {
    let mut raw = roomy(random);
    raw.permissions[..raw.roles].iter_mut().for_each(|row| *row = random.bits() | 1 << 1);
    let arrows = [[0, 1, 1], [1, 2, 2], [2, 63, 0]].map(Transition::new);
    raw.transitions[..3].copy_from_slice(&arrows);
    (raw.states, raw.final_states, raw.arrows, raw.state) = (4, 4, 3, random.below(4));
    raw
}

/// A roomy instance, with a workflow or without.
pub fn some_roomy(random: &mut Random) -> RawInstance {
    if random.percent(50) {
        roomy_ordered(random)
    } else {
        roomy(random)
    }
}

/// The roomy instance under permissions and a workflow, with something altered.
fn ordered_with(
    random: &mut Random,
    name: &str,
    alter: impl Fn(&mut RawInstance),
) -> NamedInstance {
    let mut raw = roomy_ordered(random);
    alter(&mut raw);
    (name.to_string(), raw)
}

/// Workflows that the opening would refuse with 19.
fn malformed_workflows(random: &mut Random) -> Vec<NamedInstance> {
    let mut with = |name: &str, alter: &dyn Fn(&mut RawInstance)| ordered_with(random, name, alter);
    vec![
        with("17 states", &|raw| raw.states = 17),
        with("255 states", &|raw| raw.states = 255),
        with("65 transitions", &|raw| raw.arrows = 65),
        with("255 transitions", &|raw| raw.arrows = 255),
        with("a transition too many", &|raw| raw.arrows = 6),
        with("undeclared final state", &|raw| raw.final_states |= 1 << 4),
        with("final state 15", &|raw| raw.final_states |= 1 << 15),
        with("undeclared state of a transition", &|raw| raw.transitions[1].state = 4),
        with("undeclared next state", &|raw| raw.transitions[2].next = 4),
        with("next state 255", &|raw| raw.transitions[0].next = 255),
        with("transition with action 64", &|raw| raw.transitions[2].action = 64),
        with("transition with action 255", &|raw| raw.transitions[0].action = 255),
        with("one transition twice", &|raw| raw.transitions[2] = raw.transitions[0]),
        with("one state and action twice", &|raw| {
            raw.transitions[1] = Transition { next: 3, ..raw.transitions[0] };
        }),
        with("a role too few for the permissions", &|raw| raw.permissions[raw.roles] = 2),
    ]
}

/// Present states that the workflow does not have.
fn malformed_states(random: &mut Random) -> Vec<NamedInstance> {
    let mut with = |name: &str, alter: &dyn Fn(&mut RawInstance)| ordered_with(random, name, alter);
    let mut found = vec![
        with("state 4 of 4", &|raw| raw.state = 4),
        with("state 5 of 4", &|raw| raw.state = 5),
        with("state 255", &|raw| raw.state = 255),
    ];
    for bit in 2..WIDE_BITS {
        let name = format!("bit {bit} of the state");
        found.push(with(&name, &|raw| raw.state |= 1 << bit));
    }
    found
}

/// Unused rows of actions and transitions that are not zero, and parts of permissions and workflow
/// where neither is given.
fn malformed_ordered_rest(random: &mut Random) -> Vec<NamedInstance> {
    vec![
        ordered_with(random, "last unused row of actions", |raw| raw.permissions[15] = 1 << 63),
        ordered_with(random, "action in the first unused transition", |raw| {
            raw.transitions[3].action = 3;
        }),
        ordered_with(random, "state in an unused transition", |raw| raw.transitions[40].state = 1),
        ordered_with(random, "next state in the last transition", |raw| {
            raw.transitions[63].next = 1
        }),
        ordered_with(random, "no state, all else given", |raw| (raw.states, raw.state) = (0, 0)),
        with(random, "permissions alone", |raw| raw.permissions[0] = 1),
        with(random, "permission past the roles alone", |raw| raw.permissions[raw.roles] = 1 << 63),
        with(random, "final state alone", |raw| raw.final_states = 1),
        with(random, "transition alone", |raw| raw.transitions[0].action = 1),
        with(random, "last transition alone", |raw| raw.transitions[63].next = 1),
        with(random, "number of transitions alone", |raw| raw.arrows = 1),
        with(random, "state 1 alone", |raw| raw.state = 1),
        with(random, "state of 32 bits alone", |raw| raw.state = 1 << 31),
    ]
}

/// Raw instances for each way of being malformed, each with its name; some are closed, since 15
/// comes before 10.
pub fn malformed(random: &mut Random) -> Vec<NamedInstance> {
    let kinds = [
        malformed_counts,
        malformed_words,
        malformed_terms,
        far_users,
        malformed_actions,
        malformed_rest,
        malformed_workflows,
        malformed_states,
        malformed_ordered_rest,
        statuses::malformed,
    ];
    kinds.into_iter().flat_map(|kind| kind(random)).collect()
}

/// Raw instances that no run reaches and that are not malformed all the same, with each letter that
/// they may have.
pub fn odd_but_well_formed(random: &mut Random) -> Vec<NamedInstance> {
    odd(random).into_iter().flat_map(each_letter).collect()
}

/// Such instances, whatever their letters.
fn odd(random: &mut Random) -> Vec<NamedInstance> {
    let style = Style { users: 3, roles: 2, lean: 60 };
    let unit = Term::join(Operator::Either, Term::Role(0), Term::Role(1));
    let base = |random: &mut Random, policy: &Term| RawInstance {
        closed: 0,
        count: 0,
        ..with_policy(random, style, policy, 0)
    };
    let mut closed = base(random, &unit);
    closed.closed = 1;
    let mut impossible = base(random, &unit);
    impossible.count = 12;
    let mut contradicted = base(random, &unit);
    contradicted.count = 1;
    contradicted.actions[0] = RawAction { user: 2, met: 0b001 };
    let mut sides_only = base(random, &unit);
    sides_only.count = 1;
    sides_only.actions[0] = RawAction { user: 2, met: 0b110 };
    let mut not_and_inner = base(random, &Term::plus(Term::not(Term::Role(0))));
    not_and_inner.count = 2;
    not_and_inner.actions[0] = RawAction { user: 1, met: 0b110 };
    not_and_inner.actions[1] = RawAction { user: 1, met: 0b010 };
    let mut unreachable = roomy_ordered(random);
    (unreachable.state, unreachable.closed) = (3, 0);
    let mut ended = RawInstance { closed: 1, ..roomy_ordered(random) };
    ended.final_states = 0;
    let mut nothing_given = roomy_ordered(random);
    nothing_given.permissions = [0; 16];
    vec![
        ("a state that nothing leads to".to_string(), unreachable),
        ("closed in no final state".to_string(), ended),
        ("a workflow, but no permission".to_string(), nothing_given),
        ("closed, but nothing taken".to_string(), closed),
        ("twelve actions that are not possible".to_string(), impossible),
        ("the whole without a side".to_string(), contradicted),
        ("the sides without the whole".to_string(), sides_only),
        ("a not with its inner term".to_string(), not_and_inner),
    ]
}
