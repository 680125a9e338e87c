//! Inputs for single calls: reading, normal form, events, statuses and who may act on raw instances,
//! and the multiset test, with outputs and workspaces of every length of interest.

use super::cases::{self, event, user_roles};
use super::edges;
use super::faults;
use super::instances::{self, NamedInstance};
use super::statuses::{self, close_word, lettered, CLOSE_WORDS, OTHER_WORDS};
use super::terms::{self, Style};
use super::Random;
use crate::casefile::{read_case, Case};
use crate::event::is_of_close_kind;
use crate::examples::{action, grant, numbered, CLOSE, POLICY_F};
use crate::policy::{Operator, Term};
use crate::raw::RawInstance;

/// The lengths of workspaces worth trying.
pub const WORKSPACE_LENGTHS: [usize; 6] = [8192, 8191, 8193, 8200, 0, 1];

/// A workspace or output of this length whose words all differ, to see what was written.
pub fn marked(length: usize) -> Vec<u32> {
    (0..length).map(|place| 0xa5000000 ^ place as u32).collect()
}

/// A length of a workspace: 8,192 in most cases.
fn workspace_length(random: &mut Random) -> usize {
    if random.percent(85) {
        8192
    } else {
        random.pick(&WORKSPACE_LENGTHS)
    }
}

/// Input for reading a policy and for its normal form.
#[derive(Clone, Debug, PartialEq, Eq)]
pub struct PolicyInput {
    /// The number of users.
    pub users: usize,
    /// The number of roles.
    pub roles: usize,
    /// The policy words.
    pub words: Vec<u32>,
    /// The length of the output.
    pub output: usize,
}

/// A random input for reading and normal form; about half are accepted.
pub fn policy_input(random: &mut Random) -> PolicyInput {
    let case: Case = match random.below(6) {
        0 => cases::misworded(random),
        1 => cases::faulty(random),
        2 => cases::case(random, 16, 16, 50),
        3 => cases::case(random, 3, 3, 50),
        4 => {
            let base = cases::case(random, 3, 2, 80);
            cases::equal_case(random, &base)
        }
        _ => {
            let base = cases::choosing_case(random);
            cases::spread_case(random, &base)
        }
    };
    let length = case.policy.len();
    let output = match random.below(4) {
        0 => length,
        1 => length + random.below(4),
        2 => random.below(length + 1),
        _ => 31,
    };
    PolicyInput { users: case.users.into(), roles: case.roles.into(), words: case.policy, output }
}

/// The policies of all edge cases, each with outputs that are too short, long enough and longer.
pub fn policy_edges() -> Vec<(String, PolicyInput)> {
    edges_around(|_, _, words| words.len())
}

/// The policies of all edge cases, each with outputs about the length that it is given.
pub(super) fn edges_around(
    length: impl Fn(usize, usize, &[u32]) -> usize,
) -> Vec<(String, PolicyInput)> {
    let mut found = Vec::new();
    for (name, bytes) in edges::all() {
        let Ok(Case { users, roles, policy: words, .. }) = read_case(&bytes) else {
            continue;
        };
        let (users, roles) = (users.into(), roles.into());
        let length = length(users, roles, &words);
        for output in [0, length.saturating_sub(1), length, length + 3] {
            let input = PolicyInput { users, roles, words: words.clone(), output };
            found.push((format!("{name}, output of {output}"), input));
        }
    }
    found
}

/// Input for the multiset test.
#[derive(Clone, Debug, PartialEq, Eq)]
pub struct MultisetInput {
    /// The number of users.
    pub users: usize,
    /// The number of roles.
    pub roles: usize,
    /// The policy words.
    pub words: Vec<u32>,
    /// The rows of roles.
    pub user_roles: Vec<u16>,
    /// How many actions each user makes.
    pub counts: [u8; 16],
    /// The length of the workspace.
    pub workspace: usize,
}

/// Random counts for a multiset with about so many actions.
pub(super) fn counts(random: &mut Random, users: usize, actions: usize) -> [u8; 16] {
    let mut counts = [0; 16];
    for _ in 0..actions {
        counts[random.below(users)] += 1;
    }
    if random.percent(4) {
        counts[random.below(16)] = random.pick(&[1, 12, 13, 255]);
    }
    counts
}

/// A random input for the multiset test.
pub fn multiset_input(random: &mut Random) -> MultisetInput {
    let case = match random.below(13) {
        0 => cases::misworded(random),
        1 => cases::faulty(random),
        2..=4 => cases::case(random, 5, 3, 70),
        5 | 6 => cases::leavers_case(random),
        _ => cases::rich_case(random),
    };
    let actions = random.pick(&[0, 1, 2, 2, 3, 3, 4, 5, 6, 7, 8, 9, 10, 11, 12, 13]);
    let users = usize::from(case.users);
    MultisetInput {
        users,
        roles: case.roles.into(),
        words: case.policy,
        user_roles: case.user_roles,
        counts: counts(random, users.clamp(1, 16), actions),
        workspace: workspace_length(random),
    }
}

/// The multiset test at its edges, with names.
pub fn multiset_edges() -> Vec<(&'static str, MultisetInput)> {
    let base = MultisetInput {
        users: 3,
        roles: 3,
        words: POLICY_F.to_vec(),
        user_roles: vec![2, 5, 4],
        counts: [0; 16],
        workspace: 8192,
    };
    let counted = |pairs: &[(usize, u8)]| {
        let mut counts = [0; 16];
        pairs.iter().for_each(|(user, count)| counts[*user] = *count);
        MultisetInput { counts, ..base.clone() }
    };
    let full = MultisetInput { words: vec![0x05000000, 0x01000000], ..counted(&[(0, 5), (1, 7)]) };
    let no_policy = MultisetInput { words: vec![], ..counted(&[(3, 1)]) };
    let not_role_2 = |counts: &[(usize, u8)], user_roles: [u16; 3]| {
        let words = Term::plus(Term::not(Term::Role(2))).words();
        MultisetInput { words, user_roles: user_roles.to_vec(), ..counted(counts) }
    };
    vec![
        ("P2", counted(&[(0, 2), (1, 1), (2, 1)])),
        ("P3", counted(&[(0, 1), (2, 1)])),
        ("P4", counted(&[(0, 1), (1, 1)])),
        ("empty", base.clone()),
        ("not role 2, all with a role", not_role_2(&[(0, 1), (1, 2)], [1, 2, 4])),
        ("not role 2, one of two without a role", not_role_2(&[(0, 1), (1, 2)], [1, 0, 4])),
        ("not role 2, one alone without a role", not_role_2(&[(2, 1)], [1, 2, 0])),
        ("not role 2, nobody with a role", not_role_2(&[(0, 6), (1, 6)], [0, 0, 0])),
        ("twelve", full.clone()),
        ("thirteen", counted(&[(0, 6), (1, 7)])),
        ("255 and 255", counted(&[(0, 255), (1, 255)])),
        ("undeclared user", counted(&[(3, 1)])),
        ("undeclared user 15", counted(&[(0, 1), (15, 1)])),
        ("7 before 8", counted(&[(0, 12), (3, 1)])),
        ("1 before 7", no_policy.clone()),
        ("5 before 1", MultisetInput { users: 17, ..no_policy.clone() }),
        ("6 before 7", MultisetInput { user_roles: vec![2, 5], ..counted(&[(3, 1)]) }),
        ("12 before 5", MultisetInput { users: 0, workspace: 8191, ..no_policy }),
        ("8,191 words", MultisetInput { workspace: 8191, ..full.clone() }),
        ("8,193 words", MultisetInput { workspace: 8193, ..full }),
    ]
}

/// The multiset test under each policy with a fault, where 7 would apply too: as it is, with no user
/// declared, and with a workspace that is too short.
pub fn faulty_multisets() -> Vec<(String, MultisetInput)> {
    let mut counts = [0; 16];
    counts[3] = 1;
    let mut found = Vec::new();
    for (name, words) in faults::edges() {
        for (users, workspace) in [(3, 8192), (0, 8192), (3, 8191)] {
            let user_roles = vec![2, 5, 4];
            let words = words.clone();
            let input = MultisetInput { users, roles: 3, words, user_roles, counts, workspace };
            found.push((format!("{name}, {users} users, workspace of {workspace}"), input));
        }
    }
    found
}

/// Multisets of each size, by users of whom some hold the same roles: spread over all of them, most
/// by the first, and most by the last.
pub fn ordered_multisets() -> Vec<(String, MultisetInput)> {
    let user_roles = vec![1, 2, 1, 4, 2];
    let plus = |role| Term::plus(Term::Role(role));
    let two = Term::join(Operator::Together, plus(0), plus(1));
    let apart = Term::join(Operator::Apart, Term::plus(Term::Everyone), plus(2));
    let words = Term::join(Operator::Either, two, apart).words();
    let mut found = Vec::new();
    for size in 1..=12 {
        let (mut spread, mut first, mut last) = ([0; 16], [0; 16], [0; 16]);
        (0..size).for_each(|place| spread[place % 5] += 1);
        (first[0], first[3]) = (size as u8 - 1, 1);
        (last[2], last[4]) = (1, size as u8 - 1);
        for (name, counts) in
            [("spread", spread), ("most by the first", first), ("most by the last", last)]
        {
            let (words, user_roles) = (words.clone(), user_roles.clone());
            let input =
                MultisetInput { users: 5, roles: 3, words, user_roles, counts, workspace: 8192 };
            found.push((format!("{size} actions, {name}"), input));
        }
    }
    found
}

/// Input for one event on a raw instance, and for its status, which is lent no workspace.
#[derive(Clone, Debug, PartialEq, Eq)]
pub struct EventInput {
    /// The instance.
    pub instance: RawInstance,
    /// The event word.
    pub word: u32,
    /// The length of the workspace.
    pub workspace: usize,
}

/// A random event on a random well-formed raw instance.
pub fn event_input(random: &mut Random) -> EventInput {
    let (words, actions) = random.pick(&[(5, 3), (9, 4), (13, 5), (31, 4), (7, 7), (3, 12)]);
    let instance = instances::well_formed(random, words, actions);
    let word = match random.below(20) {
        0..=8 => {
            let number = instances::number(random, &instance);
            numbered(random.below(instance.users) as u32, number)
        }
        9..=11 => close_word(random),
        12 => random.pick(&OTHER_WORDS),
        _ => event(random, instance.users, instance.roles),
    };
    EventInput { instance, word, workspace: event_workspace(random, word) }
}

/// The length of a workspace for an event: each one as often where it plays no part.
fn event_workspace(random: &mut Random, word: u32) -> usize {
    if is_of_close_kind(word) {
        random.pick(&WORKSPACE_LENGTHS)
    } else {
        workspace_length(random)
    }
}

/// Words of kind 4 and of others, each with workspaces of every length of interest, on instances with
/// each letter and on malformed ones.
fn status_edges(random: &mut Random) -> Vec<(String, EventInput)> {
    let mut found = Vec::new();
    let mut add = |name: &str, instance: RawInstance, words: &[u32], lengths: &[usize]| {
        for (word, workspace) in words.iter().flat_map(|word| lengths.iter().map(|l| (*word, *l))) {
            let name = format!("{name}, event {word:08x}, workspace of {workspace}");
            found.push((name, EventInput { instance, word, workspace }));
        }
    };
    for (name, instance) in statuses::well_formed() {
        add(&name, instance, &CLOSE_WORDS, &WORKSPACE_LENGTHS);
        add(&name, instance, &OTHER_WORDS, &[8191, 8192]);
    }
    let blank = ("blank".to_string(), RawInstance::BLANK);
    for (name, instance) in statuses::malformed(random).into_iter().chain([blank]) {
        add(&name, instance, &CLOSE_WORDS[..3], &[0, 8191, 8192]);
        add(&name, instance, &OTHER_WORDS, &[0, 8191]);
    }
    found
}

/// An event on each malformed and each odd raw instance, with names.
pub fn event_edges(random: &mut Random) -> Vec<(String, EventInput)> {
    let mut named = instances::malformed(random);
    named.extend(instances::odd_but_well_formed(random));
    let mut found = Vec::new();
    for (name, instance) in named {
        for word in [action(0), action(1), CLOSE, grant(0, 0), 0] {
            let input = EventInput { instance, word, workspace: event_workspace(random, word) };
            found.push((format!("{name}, event {word:08x}"), input));
        }
    }
    for (name, instance) in full_instances(random) {
        for (word, workspace) in
            [(action(0), 8192), (action(2), 8192), (CLOSE, 8192), (action(1), 8191), (0, 0)]
        {
            let input = EventInput { instance, word, workspace };
            found.push((format!("{name}, event {word:08x}"), input));
        }
    }
    found.extend(status_edges(random));
    found
}

/// Instances with eleven and twelve actions, open and closed.
fn full_instances(random: &mut Random) -> Vec<NamedInstance> {
    let style = Style { users: 2, roles: 2, lean: 0 };
    let policy = Term::plus(terms::unit(random, style, 3));
    let mut found = Vec::new();
    for count in [11, 12] {
        for closed in [0, 1] {
            let mut instance = instances::with_policy(random, style, &policy, 0);
            instance.user_roles[..2].copy_from_slice(&user_roles(random, 2, 2));
            instance.count = count;
            instance.closed = closed;
            instance.actions[..count].iter_mut().for_each(|action| action.met = 0b1110);
            let instance = lettered(random, instance);
            found.push((format!("{count} actions, closed {closed}"), instance));
            let ordered = instances::ordered(random, instance);
            found.push((format!("{count} actions, closed {closed}, a workflow"), ordered));
        }
    }
    found
}

/// Input for who may act on a raw instance.
#[derive(Clone, Debug, PartialEq, Eq)]
pub struct EnabledInput {
    /// The instance.
    pub instance: RawInstance,
    /// The action's number.
    pub action: u8,
    /// The length of the workspace.
    pub workspace: usize,
}

/// A random input for who may act: most instances are such as a run leaves, with users of few kinds
/// or all different.
pub fn enabled_input(random: &mut Random) -> EnabledInput {
    let users = random.pick(&[1, 2, 3, 5, 8, 16]);
    let events = random.below(9);
    let instance = match random.below(4) {
        0 => instances::well_formed(random, 13, 5),
        1 => instances::grown(random, users, &instances::ALL_DIFFERENT, events),
        _ => {
            let kinds = random.between(1, 4);
            let rows = user_roles(random, kinds, 4);
            instances::grown(random, users, &rows, events)
        }
    };
    let action = instances::number(random, &instance);
    EnabledInput { instance, action, workspace: workspace_length(random) }
}

/// Who may act on each malformed and each odd raw instance, on full ones with workspaces of every
/// length, and among one user and sixteen who are alike or all different, with names.
pub fn enabled_edges(random: &mut Random) -> Vec<(String, EnabledInput)> {
    let mut found = Vec::new();
    for (name, instance) in instances::acting_in_turn().into_iter().chain([instances::last_acted()])
    {
        found.push((name, EnabledInput { instance, action: 0, workspace: 8192 }));
    }
    let mut named = instances::malformed(random);
    named.extend(instances::odd_but_well_formed(random));
    for (name, instance) in named {
        let (action, workspace) = (random.pick(&[0, 1, 2, 63, 64, 255]), workspace_length(random));
        found.push((name, EnabledInput { instance, action, workspace }));
    }
    for (name, instance) in full_instances(random) {
        for workspace in WORKSPACE_LENGTHS {
            let input = EnabledInput { instance, action: 0, workspace };
            found.push((format!("{name}, workspace of {workspace}"), input));
        }
    }
    found
}
