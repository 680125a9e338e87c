//! Permissions and workflows at the edges of what 02's E4 allows: runs under them, each way to be
//! refused with 19, and files with five pairs.

use super::{base, named, NamedCase};
use crate::casefile::{join_all, write_case, Case};
use crate::examples::{self, grant, numbered, revoke, CLOSE};
use crate::generate::secure::{permissions, Plan};
use crate::generate::NamedFile;
use crate::policy::{Operator, Term};
use crate::secure::Given;

/// The set of these actions.
fn actions(numbers: &[u8]) -> u64 {
    numbers.iter().map(|number| 1u64 << number).sum()
}

/// Role 0 gives action 1, role 1 actions 1 and 2, role 2 actions 2, 3 and 63.
fn rows() -> [u64; 3] {
    [actions(&[1]), actions(&[1, 2]), actions(&[2, 3, 63])]
}

/// Action 1 leads from state 0 to 1, action 2 from there to 2, which is final, and action 3 back to 0;
/// nothing leads to state 3.
fn plan() -> Plan {
    let transitions = vec![[0, 1, 1], [1, 2, 2], [2, 3, 0], [3, 1, 0], [3, 63, 3]];
    Plan { states: 4, final_states: 0b1100, transitions }
}

/// The base case under these rows of actions and this workflow, with these events.
fn under(name: &str, policy: &Term, rows: [u64; 3], plan: &Plan, events: &[u32]) -> NamedCase {
    let given = Some(Given { permissions: permissions(&rows), workflow: plan.bytes() });
    let (policy, events) = (policy.words(), events.to_vec());
    (name.to_string(), Case { policy, events, given, ..base() })
}

/// Any actions of users who hold a role.
fn plus_everyone() -> Term {
    Term::plus(Term::Everyone)
}

/// One action of a user with role 0, and one of another with role 1.
fn two_apart() -> Term {
    Term::join(Operator::Apart, Term::Role(0), Term::Role(1))
}

/// The word of an action, by its user and its number.
fn act((user, number): (u32, u8)) -> u32 {
    numbered(user, number)
}

/// Runs through the workflow, with actions refused on the way: each shows whether the state moved.
fn through() -> Vec<NamedCase> {
    let run = |name, policy: &Term, events: &[u32]| under(name, policy, rows(), &plan(), events);
    let all = [(0, 1), (1, 2), (2, 3), (1, 1), (2, 2)].map(act);
    let refused_9 = [act((0, 1)), CLOSE, revoke(0, 1), act((1, 1)), act((1, 2)), CLOSE];
    let leads_on = [act((1, 1)), act((1, 2)), grant(0, 1), act((0, 2)), CLOSE];
    let refused_16 = [act((2, 1)), act((0, 1)), act((0, 2)), act((1, 2)), CLOSE];
    let refused_17 = [act((1, 2)), act((1, 1)), act((1, 1)), act((2, 2)), act((2, 2)), CLOSE];
    vec![
        run("through the workflow", &plus_everyone(), &[&all[..], &[CLOSE]].concat()),
        run("through the workflow, two apart", &two_apart(), &refused_9),
        run("9, then the same action of another user", &two_apart(), &leads_on),
        run("16, then the same action of another user", &plus_everyone(), &refused_16),
        run("17, then the action that is due", &plus_everyone(), &refused_17),
    ]
}

/// Closes in final states and in others, satisfied and not.
fn closes() -> Vec<NamedCase> {
    let apart = [CLOSE, act((0, 1)), CLOSE, act((1, 2)), CLOSE, CLOSE];
    let plus = [CLOSE, act((1, 1)), CLOSE, act((1, 2)), act((2, 3)), CLOSE];
    let only_start = Plan { final_states: 1, ..plan() };
    let no_end = Plan { final_states: 0, ..plan() };
    let at_start = [CLOSE, act((0, 1)), CLOSE, act((1, 2)), CLOSE, act((2, 3)), CLOSE];
    let long_policy = Term::join(Operator::Together, two_apart(), Term::Role(2));
    let too_early = [act((0, 1)), act((1, 2)), CLOSE, act((2, 3)), CLOSE];
    vec![
        under("a close in each state, two apart", &two_apart(), rows(), &plan(), &apart),
        under("a close in each state", &plus_everyone(), rows(), &plan(), &plus),
        under("a close in state 0", &plus_everyone(), rows(), &only_start, &at_start),
        under("no final state", &plus_everyone(), rows(), &no_end, &at_start),
        under("a final state, not satisfied", &long_policy, rows(), &plan(), &too_early),
    ]
}

/// Users who come to be permitted and cease to be.
fn changing_roles() -> Vec<NamedCase> {
    let run = |name, events: &[u32]| under(name, &plus_everyone(), rows(), &plan(), events);
    let given = [act((0, 1)), act((0, 2)), grant(0, 2), act((0, 2)), act((0, 3)), CLOSE];
    let taken =
        [act((1, 1)), revoke(1, 1), act((1, 2)), grant(1, 0), act((1, 2)), act((2, 2)), CLOSE];
    let lost = [act((0, 1)), revoke(0, 0), act((0, 1)), act((2, 2)), revoke(2, 2), CLOSE];
    vec![
        run("permitted by a grant", &given),
        run("permitted no more", &taken),
        run("no role left", &lost),
    ]
}

/// Cases in which two numbers would do, to see which comes first.
fn orders() -> Vec<NamedCase> {
    let turning = Plan { states: 1, final_states: 1, transitions: vec![[0, 1, 0]] };
    let full = |last: &[u32]| [&[act((1, 1)); 12][..], last].concat();
    let run = |name, policy: &Term, events: &[u32]| under(name, policy, rows(), &turning, events);
    let no_role = [revoke(2, 2), act((2, 1))];
    vec![
        run("16 before 17", &plus_everyone(), &[act((0, 2)), act((0, 1))]),
        run("16 before 8", &plus_everyone(), &full(&[act((2, 1)), act((0, 1))])),
        run("17 before 8", &plus_everyone(), &full(&[act((2, 2)), act((0, 1)), CLOSE])),
        run("16 before 9", &plus_everyone(), &no_role),
        run("17 before 9", &two_apart(), &[act((1, 1)), act((1, 2)), act((1, 1))]),
        run("7 before 16", &plus_everyone(), &[act((3, 9)), act((2, 9))]),
        run("10 before 16", &plus_everyone(), &[act((0, 1)), CLOSE, act((0, 9))]),
        run("10 before 17", &plus_everyone(), &[act((0, 1)), CLOSE, act((1, 2))]),
    ]
}

/// Numbers above 63: no role gives them; without permissions they are as any other.
fn high_numbers() -> Vec<NamedCase> {
    let events =
        [act((2, 63)), act((2, 64)), act((0, 65)), act((1, 127)), act((1, 191)), act((2, 255))];
    let everything = Plan { states: 1, final_states: 1, transitions: vec![[0, 63, 0], [0, 0, 0]] };
    let given = under("numbers above 63", &plus_everyone(), [u64::MAX; 3], &everything, &events);
    let policy = plus_everyone().words();
    let bare = |name: &str, given| {
        let (policy, events) = (policy.clone(), events.to_vec());
        (name.to_string(), Case { policy, events, given, ..base() })
    };
    vec![
        given,
        bare("numbers above 63, neither given", None),
        bare("numbers above 63, both empty", Some(Given::default())),
    ]
}

/// Workflows as large and as small as they may be.
fn sizes() -> Vec<NamedCase> {
    let ring = |count: u8| -> Vec<[u8; 3]> {
        (0..count).map(|place| [place % 16, place / 16, (place + 1) % 16]).collect()
    };
    let run = |name, plan: &Plan| {
        let walk: Vec<u32> = (0..16).map(|place| act((place % 3, place as u8 % 4))).collect();
        let events = [&[CLOSE][..], &walk, &[CLOSE]].concat();
        under(name, &plus_everyone(), [u64::MAX; 3], plan, &events)
    };
    let plan = |states, final_states, transitions| Plan { states, final_states, transitions };
    vec![
        run("64 transitions, 16 states", &plan(16, u16::MAX, ring(64))),
        run("63 transitions, 16 states", &plan(16, 1 << 12, ring(63))),
        run("one state, no transition", &plan(1, 1, vec![])),
        run("one state, no transition, no final state", &plan(1, 0, vec![])),
        run("action 63", &plan(1, 1, vec![[0, 63, 0], [0, 1, 0]])),
        run("one action twice in a row", &plan(1, 1, vec![[0, 0, 0], [0, 2, 0]])),
        run("two ways to one state", &plan(2, 2, vec![[0, 0, 1], [0, 1, 1], [1, 2, 0], [1, 3, 1]])),
        run("a dead end", &plan(3, 4, vec![[0, 0, 1], [2, 1, 0]])),
    ]
}

/// Two actions that are due at once, each for other users.
fn side_by_side() -> Vec<NamedCase> {
    let plan = Plan { states: 1, final_states: 1, transitions: vec![[0, 0, 0], [0, 1, 0]] };
    let rows = [actions(&[0]), actions(&[1]), 0];
    let events = [(0, 0), (0, 1), (1, 1), (1, 0), (2, 0)].map(act);
    let events = [&events[..], &[grant(2, 0), act((2, 0)), act((2, 1)), CLOSE]].concat();
    let all_alike = Term::plus(Term::Everyone);
    let second_only = Term::plus(Term::set(&[1, 2]));
    vec![
        under("two actions due at once", &all_alike, rows, &plan, &events),
        under("two actions due at once, not for all", &second_only, rows, &plan, &events),
    ]
}

/// Sixteen roles of which only the last one, or only the first one, gives the action.
fn sixteen_roles() -> Vec<NamedCase> {
    let plan = Plan { states: 1, final_states: 1, transitions: vec![[0, 1, 0]] };
    let run = |giving: usize| {
        let mut rows = [0; 16];
        rows[giving] = actions(&[1]);
        let given = Given { permissions: permissions(&rows), workflow: plan.bytes() };
        let case = Case {
            roles: 16,
            policy: plus_everyone().words(),
            user_roles: vec![1, 1 << 15, 0x7ffe],
            events: [(0, 1), (1, 1), (2, 1)].map(act).into(),
            given: Some(given),
            ..base()
        };
        (format!("sixteen roles, of which role {giving} gives the action"), case)
    };
    [0, 15].map(run).into()
}

/// Runs under permissions and a workflow: Examples 1, 2 and 7 of document 004, and the edges.
pub fn runs() -> Vec<NamedCase> {
    let (rows, [t, t1, t2]) = (rows(), examples::payments());
    let nobody_holds = [actions(&[1]), actions(&[1]), 0];
    let last_role = [0, 0, actions(&[1, 2, 3])];
    let events = [act((0, 1)), act((1, 2)), act((2, 2)), CLOSE];
    let mut found = vec![
        ("payment, 004's t".to_string(), t),
        ("payment, 004's t'".to_string(), t1),
        ("payment, 004's t''".to_string(), t2),
        under("an action that no role gives", &plus_everyone(), nobody_holds, &plan(), &events),
        under("no role gives an action", &plus_everyone(), [0; 3], &plan(), &events),
        under("the last role alone", &plus_everyone(), last_role, &plan(), &events),
        under("a workflow, no event", &plus_everyone(), rows, &plan(), &[]),
    ];
    let more = [through(), closes(), changing_roles(), orders(), side_by_side(), high_numbers()];
    for more in more.into_iter().chain([sizes(), sixteen_roles()]) {
        found.extend(more);
    }
    found
}

/// A case with permissions and workflow of these bytes, and a name.
fn with_bytes(name: &str, permissions: &[u8], workflow: &[u8]) -> NamedCase {
    let given = Given { permissions: permissions.to_vec(), workflow: workflow.to_vec() };
    (name.to_string(), Case { given: Some(given), ..base() })
}

/// Parts that have the wrong length, or stand alone.
fn wrong_lengths() -> Vec<NamedCase> {
    let (rows, plan) = (permissions(&rows()), plan().bytes());
    let longer = |bytes: &[u8], by: usize| [bytes, &vec![0; by]].concat();
    let counting = |count: u8| [&plan[..1], &[count], &plan[2..]].concat();
    vec![
        with_bytes("19, permissions alone", &rows, &[]),
        with_bytes("19, workflow alone", &[], &plan),
        with_bytes("19, permissions a byte short", &rows[1..], &plan),
        with_bytes("19, permissions a byte long", &longer(&rows, 1), &plan),
        with_bytes("19, permissions a row short", &rows[8..], &plan),
        with_bytes("19, permissions a row long", &longer(&rows, 8), &plan),
        with_bytes("19, permissions of one byte", &[0], &plan),
        with_bytes("19, permissions for sixteen roles", &longer(&rows, 8 * 13), &plan),
        with_bytes("19, workflow of one byte", &rows, &plan[..1]),
        with_bytes("19, workflow of two bytes", &rows, &[1, 0]),
        with_bytes("19, workflow of three bytes", &rows, &[1, 0, 0]),
        with_bytes("19, workflow a byte short", &rows, &plan[..plan.len() - 1]),
        with_bytes("19, workflow a byte long", &rows, &longer(&plan, 1)),
        with_bytes("19, workflow a transition short", &rows, &plan[..plan.len() - 3]),
        with_bytes("19, workflow a transition long", &rows, &longer(&plan, 3)),
        with_bytes("19, one transition counted less", &rows, &counting(4)),
        with_bytes("19, one transition counted more", &rows, &counting(6)),
        with_bytes("19, 255 transitions counted", &rows, &counting(255)),
        with_bytes("both empty", &[], &[]),
    ]
}

/// Workflows that are not as they must be, each for one reason.
fn faulty_plans() -> Vec<NamedCase> {
    let with = |name: &str, alter: &dyn Fn(&mut Plan)| {
        let mut plan = plan();
        alter(&mut plan);
        with_bytes(name, &permissions(&rows()), &plan.bytes())
    };
    let many = |count: u8| (0..count).map(|place| [place / 8, place % 8, 0]).collect::<Vec<_>>();
    vec![
        with("19, no state", &|plan| {
            *plan = Plan { states: 0, final_states: 0, transitions: vec![] }
        }),
        with("19, no state, but transitions", &|plan| plan.states = 0),
        with("19, 17 states", &|plan| plan.states = 17),
        with("19, 255 states", &|plan| plan.states = 255),
        with("16 states", &|plan| plan.states = 16),
        with("19, final state 4", &|plan| plan.final_states |= 1 << 4),
        with("19, final state 15", &|plan| plan.final_states |= 1 << 15),
        with("19, state 4 left", &|plan| plan.transitions[4][0] = 4),
        with("19, state 255 left", &|plan| plan.transitions[0][0] = 255),
        with("19, state 4 reached", &|plan| plan.transitions[4][2] = 4),
        with("19, state 16 reached", &|plan| plan.transitions[0][2] = 16),
        with("19, action 64", &|plan| plan.transitions[0][1] = 64),
        with("19, action 255", &|plan| plan.transitions[4][1] = 255),
        with("19, state and action twice", &|plan| plan.transitions.push([0, 1, 1])),
        with("19, state and action twice, another next", &|plan| plan.transitions.push([3, 63, 0])),
        with("19, state and action twice, next to each other", &|plan| {
            plan.transitions.insert(1, [0, 1, 2]);
        }),
        with("one action in two states", &|plan| plan.transitions.push([1, 1, 1])),
        with("one state, two actions", &|plan| plan.transitions.push([0, 2, 1])),
        with("64 transitions, 8 states", &|plan| {
            *plan = Plan { states: 8, final_states: 1, transitions: many(64) };
        }),
        with("19, 65 transitions", &|plan| {
            *plan = Plan { states: 9, final_states: 1, transitions: many(65) };
        }),
        with("19, 128 transitions", &|plan| {
            *plan = Plan { states: 16, final_states: 1, transitions: many(128) };
        }),
    ]
}

/// Openings that another number refuses first.
fn opening_orders() -> Vec<NamedCase> {
    let alone = with_bytes("", &permissions(&rows()), &[]).1;
    let with = |name: &str, alter: &dyn Fn(&mut Case)| {
        let mut case = alone.clone();
        alter(&mut case);
        (name.to_string(), case)
    };
    vec![
        with("5 before 19", &|case| case.users = 17),
        with("5 before 19, roles", &|case| case.roles = 0),
        with("1 before 19", &|case| case.policy.clear()),
        with("2 before 19", &|case| case.policy[0] = 0),
        with("3 before 19", &|case| case.policy.push(0x01000000)),
        with("4 before 19", &|case| case.policy = vec![0x05000000, 0x05000000, 0x01000000]),
        with("6 before 19", &|case| case.user_roles.push(0)),
        with("6 before 19, undeclared role", &|case| case.user_roles[0] = 8),
    ]
}

/// Openings that are refused with 19, and some just beside them; those refused with it have names that
/// begin with it.
pub fn openings() -> Vec<NamedCase> {
    [wrong_lengths(), faulty_plans(), opening_orders()].concat()
}

/// A file with five pairs and something in each part.
fn whole() -> Vec<u8> {
    write_case(&through()[0].1)
}

/// That file with one number of its pairs changed.
fn wrong_pairs() -> Vec<NamedFile> {
    let mut files = Vec::new();
    for place in 0..10 {
        for by in [1u16, 4, 8, 256, 0xffff, 0xfffc, 0xfff8, 0x8000] {
            let mut bytes = whole();
            let number = u16::from_le_bytes([bytes[2 * place], bytes[2 * place + 1]]);
            let changed = number.wrapping_add(by).to_le_bytes();
            bytes[2 * place..2 * place + 2].copy_from_slice(&changed);
            files.push(named(&format!("five pairs, number {place} plus {by}"), bytes));
        }
    }
    files
}

/// Files of other numbers of pairs, and ones too short for the pairs that they say.
fn wrong_files() -> Vec<NamedFile> {
    let parts: [&[u8]; 6] = [&[0, 0, 0, 1], &[1, 1, 1, 0], &[], &[], &[], &[]];
    let mut files: Vec<NamedFile> = (0..=6)
        .filter(|pairs| ![3, 5].contains(pairs))
        .map(|pairs| named(&format!("{pairs} pairs"), join_all(&parts[..pairs])))
        .collect();
    let bare = join_all(&[&[][..]; 5]);
    for length in 12..=20 {
        files.push(named(&format!("first offset 20, {length} bytes"), bare[..length].to_vec()));
    }
    let mut backwards = bare[..16].to_vec();
    backwards[4..6].copy_from_slice(&[12, 0]);
    let whole = whole();
    files.extend([
        named("five pairs, offsets that go back", backwards),
        named("five pairs, five empty parts", bare),
        named("five pairs, a byte too many", [&whole[..], &[0]].concat()),
        named("five pairs, a byte too few", whole[..whole.len() - 1].to_vec()),
        named("three pairs, two parts more", [&join_all(&parts[..3])[..], &whole[..24]].concat()),
        named("five pairs, 4096 bytes", large(4096)),
        named("five pairs, 4097 bytes", large(4097)),
    ]);
    files
}

/// A file with five pairs and so many bytes, of which most are permissions.
fn large(bytes: usize) -> Vec<u8> {
    let rest = vec![0; bytes - 20 - 4 - 4 - 4];
    join_all(&[&[0, 0, 0, 1], &[1, 1, 1, 0], &[], &rest, &[1, 0, 0, 0]])
}

/// All of them as files.
pub fn files() -> Vec<NamedFile> {
    let cases = [runs(), openings()].concat().into_iter();
    let mut files: Vec<NamedFile> = cases.map(|(name, case)| (name, write_case(&case))).collect();
    files.extend(wrong_pairs());
    files.extend(wrong_files());
    files
}

#[cfg(test)]
mod tests {
    use super::*;
    use crate::casefile::judge;

    #[test]
    fn openings_are_refused_as_named() {
        for (name, case) in openings() {
            let text = judge(&write_case(&case));
            assert_eq!(text == "refused 19\n", name.starts_with("19, "), "{name}: {text}");
        }
    }

    #[test]
    fn runs_open() {
        for (name, case) in runs() {
            assert!(!judge(&write_case(&case)).starts_with("refused"), "{name}");
        }
    }

    #[test]
    fn other_numbers_of_pairs_are_14() {
        for (name, bytes) in wrong_files() {
            let large = name == "five pairs, 4096 bytes";
            let expected = if large { "refused 19\n" } else { "refused 14\n" };
            assert_eq!(judge(&bytes), expected, "{name}");
        }
    }
}
