//! Case files at the edges of what 01 and 02 allow, at least one for every refusal number that a case
//! file can bring about, users without a role under a not, and letters of the status that come and go.

pub mod secure;
pub mod statuses;

use super::{faults, NamedFile};
use crate::casefile::{join_parts, write_case, Case};
use crate::examples::{action, grant, revoke, CLOSE, LISTING_L};
use crate::policy::{Operator, Term};

/// The case that the edges start from: three users, three roles, one action of each user wanted
/// and any number more.
fn base() -> Case {
    let together = |left, right| Term::join(Operator::Together, left, right);
    let term = together(Term::Role(0), together(Term::Role(1), Term::plus(Term::Everyone)));
    Case {
        users: 3,
        roles: 3,
        policy: term.words(),
        user_roles: vec![1, 2, 4],
        events: vec![action(0), action(1), action(2), CLOSE],
        given: None,
    }
}

/// The base case with something altered.
fn with(name: &str, alter: impl FnOnce(&mut Case)) -> NamedFile {
    let mut case = base();
    alter(&mut case);
    (name.to_string(), write_case(&case))
}

/// A policy of exactly this many words that is one term.
fn policy_of(words: usize) -> Vec<u32> {
    let mut policy: Vec<u32> = Vec::new();
    if words.is_multiple_of(2) {
        policy.push(0x05000000);
        policy.extend(vec![0x06000000; words / 2 - 1]);
        policy.extend(vec![0x01000000; words / 2]);
    } else {
        policy.extend(vec![0x08000000; words / 2]);
        policy.extend(vec![0x01000000; words / 2 + 1]);
    }
    policy
}

/// Policies of 0, 1, 30, 31, 32, 33 and more words.
fn policy_lengths() -> Vec<NamedFile> {
    let mut files = vec![with("no policy word", |case| case.policy.clear())];
    for words in [1, 2, 3, 30, 31, 32, 33, 64, 255, 256, 257, 1000] {
        files.push(with(&format!("{words} policy words"), |case| case.policy = policy_of(words)));
    }
    files
}

/// Users and roles from 0 to past 16, with a row for each user.
fn counts() -> Vec<NamedFile> {
    let mut files = Vec::new();
    for count in [0u8, 1, 2, 15, 16, 17, 32, 255] {
        let row = if count == 1 { 1 } else { 3 };
        files.push(with(&format!("{count} users"), |case| {
            case.users = count;
            case.user_roles = vec![row; count.into()];
        }));
        files.push(with(&format!("{count} roles"), |case| {
            case.roles = count;
            case.user_roles = vec![row; 3];
        }));
        files.push(with(&format!("{count} users and roles"), |case| {
            case.users = count;
            case.roles = count;
            case.policy = vec![0x05000000, 0x01000000];
            case.user_roles = vec![row; count.into()];
            let user = u32::from(count).saturating_sub(1);
            case.events = vec![action(user), action(user + 1), grant(user, user), CLOSE];
        }));
    }
    files
}

/// Policy words that are out of layout, name undeclared roles or users, or are empty sets.
fn damaged_words() -> Vec<NamedFile> {
    let mut words = vec![
        0x00000000, 0x0a000000, 0x0b000000, 0x10000000, 0x81000000, 0xff000000, 0x02000003,
        0x0200000f, 0x02000010, 0x02000100, 0x0200ffff, 0x03000000, 0x03000008, 0x0300000f,
        0x03008000, 0x03008001, 0x0300ffff,
    ];
    for kind in 1..=9u32 {
        words.extend((16..24).map(|bit| kind << 24 | u32::from(kind == 3) | 1 << bit));
    }
    for kind in [1, 4, 5, 6, 7, 8, 9u32] {
        words.extend([kind << 24 | 1, kind << 24 | 0x8000, kind << 24 | 0x0100]);
    }
    let mut files = Vec::new();
    for word in words {
        files.push(with(&format!("policy word {word:08x}"), |case| case.policy = vec![word]));
        files.push(with(&format!("policy word {word:08x} last"), |case| {
            *case.policy.last_mut().expect("the base has words") = word;
        }));
    }
    files
}

/// Words that are not one term, and not and plus over terms that are no unit terms.
fn wrong_terms() -> Vec<NamedFile> {
    let (everyone, not, plus) = (0x01000000, 0x04000000, 0x05000000);
    let (either, both, together, apart) = (0x06000000, 0x07000000, 0x08000000, 0x09000000);
    let policies: Vec<(&str, Vec<u32>)> = vec![
        ("two terms", vec![everyone, everyone]),
        ("a term and an operator", vec![everyone, together]),
        ("an operator alone", vec![together]),
        ("an operator with one side", vec![apart, everyone]),
        ("a not alone", vec![not]),
        ("a plus alone", vec![plus]),
        ("left over after a term, damaged", vec![everyone, 0]),
        ("missing side, damaged", vec![together, everyone, 0x0a000000]),
        ("not over plus", vec![not, plus, everyone]),
        ("plus over plus", vec![plus, plus, everyone]),
        ("plus over not over plus", vec![plus, not, plus, everyone]),
        ("not over together", vec![not, together, everyone, everyone]),
        ("not over apart", vec![not, apart, everyone, everyone]),
        ("plus over together", vec![plus, together, everyone, everyone]),
        ("plus over apart", vec![plus, apart, everyone, everyone]),
        ("plus over both with plus", vec![plus, both, everyone, plus, everyone]),
        ("not over either with plus", vec![not, either, plus, everyone, everyone]),
        ("not over plus on the right", vec![either, everyone, not, plus, everyone]),
        ("not over plus, left over word", vec![not, plus, everyone, everyone]),
        ("not over plus, missing word", vec![apart, not, plus, everyone]),
        ("not over plus, damaged", vec![not, plus, 0x01000001]),
        ("plus over not", vec![plus, not, everyone]),
        ("not over not", vec![not, not, everyone]),
        ("plus over either", vec![plus, either, everyone, not, everyone]),
        ("either of plus and unit", vec![either, plus, everyone, everyone]),
        ("both of unit and plus", vec![both, everyone, plus, everyone]),
        ("both of two complex terms", vec![both, plus, everyone, together, everyone, everyone]),
    ];
    let file = |(name, words): (&str, Vec<u32>)| with(name, |case| case.policy = words);
    policies.into_iter().map(file).collect()
}

/// Policies with faults at every place of interest.
fn faulty_policies() -> Vec<NamedFile> {
    let file = |(name, words): (String, Vec<u32>)| with(&name, |case| case.policy = words);
    faults::edges().into_iter().map(file).collect()
}

/// Rows of roles that are too few, too many, or name undeclared roles.
fn user_roles() -> Vec<NamedFile> {
    vec![
        with("no row", |case| case.user_roles.clear()),
        with("a row too few", |case| case.user_roles.truncate(2)),
        with("a row too many", |case| case.user_roles.push(0)),
        with("many rows too many", |case| case.user_roles = vec![1; 500]),
        with("undeclared role 3", |case| case.user_roles[2] = 8),
        with("undeclared role 15", |case| case.user_roles[0] = 0x8000),
        with("undeclared role in a row too many", |case| case.user_roles.push(8)),
    ]
}

/// Cases in which two numbers would do, to see which comes first.
fn orders() -> Vec<NamedFile> {
    let both = |name, users, policy: &[u32], rows: &[u16]| {
        with(name, |case| {
            case.users = users;
            case.policy = policy.to_vec();
            case.user_roles = rows.to_vec();
        })
    };
    vec![
        both("5 before 1", 0, &[], &[1, 2, 4]),
        both("5 before 2", 17, &[0], &[1, 2, 4]),
        both("5 before 3", 17, &[0x05000000], &[1, 2, 4]),
        both("5 before 4", 0, &[0x04000000, 0x05000000, 0x01000000], &[]),
        both("5 before 6", 17, &[0x01000000], &[0x8000]),
        both("1 before 2", 3, &[0; 32], &[1, 2, 4]),
        both("1 before 6", 3, &[], &[]),
        both("2 before 3", 3, &[0x01000000, 0x02000003], &[1, 2, 4]),
        both("2 before 4", 3, &[0x04000000, 0x05000000, 0], &[1, 2, 4]),
        both("2 before 6", 3, &[0], &[]),
        both("3 before 4", 3, &[0x04000000, 0x05000000, 0x01000000, 0x01000000], &[1, 2, 4]),
        both("3 before 6", 3, &[0x05000000], &[8, 0, 0]),
        both("4 before 6", 3, &[0x05000000, 0x05000000, 0x01000000], &[8, 0, 0]),
    ]
}

/// Event words that are out of layout or name undeclared users or roles.
fn event_words() -> Vec<u32> {
    let mut words = vec![
        0, 0x00000001, 0x05000000, 0x10000000, 0x81000000, 0xff000000, 0xffffffff, 0x010000ff,
        0x01000300, 0x0100ff00, 0x01001000, 0x02000300, 0x02000003, 0x02000010, 0x020000ff,
        0x03000300, 0x03000003, 0x03000010, 0x03000302, 0x02000002, 0x03000001,
    ];
    for kind in 1..=3u32 {
        words.extend((16..24).map(|bit| kind << 24 | 1 << bit));
    }
    words.extend((0..24).map(|bit| CLOSE | 1 << bit));
    words
}

/// Every event word of interest, on an open instance and after a close.
fn damaged_events() -> Vec<NamedFile> {
    let mut files = Vec::new();
    for word in event_words() {
        files.push(with(&format!("event {word:08x}"), |case| case.events.insert(2, word)));
        files.push(with(&format!("event {word:08x} after a close"), |case| {
            case.events.push(word);
            case.events.push(action(0));
        }));
    }
    files
}

/// A case whose policy is plus everyone, with these events.
fn plus_everyone(name: &str, events: Vec<u32>) -> NamedFile {
    with(name, |case| {
        case.policy = vec![0x05000000, 0x01000000];
        case.events = events;
    })
}

/// Eleven, twelve and thirteen actions; 7 before 8, 8 before 9.
fn many_actions() -> Vec<NamedFile> {
    let full = |last: Vec<u32>| [vec![action(1); 12], last].concat();
    let impossible = with("8 before 9", |case| {
        case.policy = vec![0x08000000, 0x05000000, 0x02000000, 0x03000002];
        case.events = [vec![action(0); 11], vec![action(1), action(1), CLOSE, action(1)]].concat();
    });
    let no_role = [vec![revoke(2, 2)], full(vec![action(2), CLOSE])].concat();
    vec![
        plus_everyone("11 actions", vec![action(0); 11]),
        plus_everyone("12 actions", vec![action(0); 12]),
        plus_everyone("13 actions", vec![action(0); 13]),
        plus_everyone("12 actions and a close", full(vec![CLOSE])),
        plus_everyone("13 actions and a close", full(vec![action(1), CLOSE])),
        plus_everyone("thirteenth action out of layout", full(vec![0x01010000, 0x01000300])),
        plus_everyone("grants after 12 actions", full(vec![grant(1, 2), revoke(1, 1), CLOSE])),
        plus_everyone("13 actions after a close", full(vec![CLOSE, action(1), 0])),
        plus_everyone("thirteenth action by a user without a role", no_role),
        impossible,
    ]
}

/// Closes that are refused, and what may follow.
fn closes() -> Vec<NamedFile> {
    vec![
        with("close with nothing taken", |case| case.events = vec![CLOSE, CLOSE, action(0)]),
        with("close too early", |case| {
            case.events = vec![action(0), CLOSE, action(1), CLOSE, action(2), CLOSE, CLOSE];
        }),
        with("an action refused, then taken", |case| {
            case.user_roles = vec![0, 0, 0];
            case.events = vec![action(0), grant(0, 1), action(0), revoke(0, 1), action(0), CLOSE];
        }),
        with("grants after a close", |case| {
            case.events.extend([grant(0, 0), revoke(0, 0), CLOSE, 0xffffffff]);
        }),
        with("no event", |case| case.events.clear()),
        with("256 events", |case| case.events = [grant(0, 1), revoke(0, 1)].repeat(128)),
        with("257 events", |case| case.events = vec![action(0); 257]),
    ]
}

/// A case with a name that says what it tries.
pub type NamedCase = (String, Case);

/// The base case with this policy, these rows of roles and these events.
fn run(name: &str, policy: Term, user_roles: [u16; 3], events: &[u32]) -> NamedCase {
    let (user_roles, events) = (user_roles.to_vec(), events.to_vec());
    (name.to_string(), Case { policy: policy.words(), user_roles, events, ..base() })
}

/// P6 and P7, and P6 with another role for the one who acts.
fn manager_then_not() -> Vec<NamedCase> {
    let policy = || Term::join(Operator::Together, Term::Role(2), Term::not(Term::Role(2)));
    let events = |first| [grant(1, 2), action(first), revoke(1, 2), action(1), CLOSE];
    vec![
        run("P6", policy(), [0; 3], &events(1)),
        run("P7", policy(), [0; 3], &events(0)),
        run("P6 with another role", policy(), [0, 1, 0], &events(1)),
    ]
}

/// Users without a role under policies with a not (02, E3): two leave and try to act again, one is
/// given a first role in between, and after the close a leaver tries once more.
pub fn leavers() -> Vec<NamedCase> {
    let (not, plus, anna) = (Term::not, Term::plus, || Term::set(&[0]));
    let together = |left, right| Term::join(Operator::Together, left, right);
    let policies = [
        ("not Anna", plus(not(anna()))),
        ("not not Anna", plus(not(not(anna())))),
        ("not everyone", plus(not(Term::Everyone))),
        ("not not everyone", plus(not(not(Term::Everyone)))),
        ("role 0 and not role 0", together(Term::Role(0), not(Term::Role(0)))),
    ];
    let all_act = [action(0), action(1), action(2)];
    let leaving = [revoke(1, 1), action(1), revoke(0, 0), action(0), grant(2, 1), action(2)];
    let events = [&all_act[..], &leaving, &[CLOSE, action(1)]].concat();
    let cases = policies.map(|(name, policy)| run(name, policy, [1, 2, 0], &events));
    [manager_then_not(), cases.to_vec()].concat()
}

/// A file with a name.
fn named(name: &str, bytes: Vec<u8>) -> NamedFile {
    (name.to_string(), bytes)
}

/// Files that are too short, too long or have parts of wrong lengths, and some just beside them.
fn wrong_lengths() -> Vec<NamedFile> {
    let listing = LISTING_L.to_vec();
    let large = join_parts(&vec![1; 4080], &[2; 4], &[]);
    let (word, rows) = ([0, 0, 0, 1], [1, 1, 1, 0]);
    vec![
        named("empty file", vec![]),
        named("1 byte", vec![12]),
        named("11 bytes", listing[..11].to_vec()),
        named("only pairs", listing[..12].to_vec()),
        named("three empty parts", join_parts(&[], &[], &[])),
        named("counts alone", join_parts(&[], &[1, 1], &[])),
        named("one byte of counts", join_parts(&[], &[1], &[])),
        named("odd rows", join_parts(&word, &rows[..3], &[])),
        named("policy of 5 bytes", join_parts(&[0, 0, 0, 1, 0], &rows, &[])),
        named("policy of 6 bytes", join_parts(&[0, 0, 0, 1, 0, 0], &rows, &[])),
        named("events of 3 bytes", join_parts(&word, &rows, &[0, 0, 1])),
        named("events of 1024 bytes", join_parts(&word, &rows, &[0; 1024])),
        named("events of 1026 bytes", join_parts(&word, &rows, &[0; 1026])),
        named("events of 1028 bytes", join_parts(&word, &rows, &[0; 1028])),
        named("4096 bytes of policy", large.clone()),
        named("4096 bytes of rows", join_parts(&word, &vec![1; 4080], &[])),
        named("4097 bytes", [large, vec![0]].concat()),
        named("4098 bytes of rows", join_parts(&word, &vec![1; 4082], &[])),
        named("a large file", vec![12; 100_000]),
        named("a byte too many", [listing.clone(), vec![0]].concat()),
        named("four bytes too many", [listing.clone(), vec![0; 4]].concat()),
        named("a byte too few", listing[..95].to_vec()),
        named("an event too few", listing[..92].to_vec()),
    ]
}

/// Listing L with one number of its pairs changed.
fn wrong_pairs() -> Vec<NamedFile> {
    let mut files = Vec::new();
    for place in 0..6 {
        for by in [1u16, 2, 4, 8, 256, 0xffff, 0xfffe, 0xfffc, 0x8000] {
            let mut bytes = LISTING_L.to_vec();
            let number = u16::from_le_bytes([bytes[2 * place], bytes[2 * place + 1]]);
            let changed = number.wrapping_add(by).to_le_bytes();
            bytes[2 * place..2 * place + 2].copy_from_slice(&changed);
            files.push(named(&format!("pair number {place} plus {by}"), bytes));
        }
    }
    files
}

/// Listing L with two neighbouring numbers of its pairs changed so that they still add up.
fn shifted_parts() -> Vec<NamedFile> {
    let shift = |by: i16| {
        let mut bytes = LISTING_L.to_vec();
        let mut change = |place: usize, by: i16| {
            let number = i16::from_le_bytes([bytes[place], bytes[place + 1]]) + by;
            bytes[place..place + 2].copy_from_slice(&number.to_le_bytes());
        };
        change(2, by);
        change(4, by);
        change(6, -by);
        (format!("policy longer by {by}"), bytes)
    };
    let mut files: Vec<NamedFile> = [-8, -4, -1, 1, 2, 4, 6, 7, 8].map(shift).into();
    let mut swapped = LISTING_L.to_vec();
    let pairs = [&LISTING_L[4..8], &LISTING_L[..4], &LISTING_L[8..12]].concat();
    swapped[..12].copy_from_slice(&pairs);
    files.push(("pairs not sorted".to_string(), swapped));
    files
}

/// The edges that are worth following call by call: leavers, workflows, and letters of the status.
pub fn runs() -> Vec<NamedCase> {
    [leavers(), secure::runs(), statuses::runs()].concat()
}

/// All edges; the names are all different.
pub fn all() -> Vec<NamedFile> {
    let mut files = vec![("listing L".to_string(), LISTING_L.to_vec())];
    files.extend(leavers().into_iter().map(|(name, case)| (name, write_case(&case))));
    for more in [
        policy_lengths(),
        counts(),
        damaged_words(),
        wrong_terms(),
        faulty_policies(),
        user_roles(),
        orders(),
        damaged_events(),
        many_actions(),
        closes(),
        wrong_lengths(),
        wrong_pairs(),
        shifted_parts(),
        secure::files(),
        statuses::files(),
    ] {
        files.extend(more);
    }
    files
}
