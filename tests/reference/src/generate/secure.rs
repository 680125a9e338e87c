//! Permissions and workflows (02, E4): random ones, ones with a fault, and cases that run under them.

use super::cases::{self, event};
use super::Random;
use crate::casefile::Case;
use crate::examples::{numbered, CLOSE};
use crate::monitor::{Monitor, Taken};
use crate::secure::{Given, Secure};

/// The numbers that most actions have.
pub const NUMBERS: [u8; 6] = [0, 1, 2, 7, 62, 63];

/// A workflow to be written down, whether or not it would be accepted.
#[derive(Clone, Debug, PartialEq, Eq)]
pub struct Plan {
    /// How many states.
    pub states: u8,
    /// The final states, bit s for state s.
    pub final_states: u16,
    /// State, action and next state of each transition.
    pub transitions: Vec<[u8; 3]>,
}

impl Plan {
    /// Its bytes.
    pub fn bytes(&self) -> Vec<u8> {
        let mut bytes = vec![self.states, self.transitions.len() as u8];
        bytes.extend(self.final_states.to_le_bytes());
        bytes.extend(self.transitions.concat());
        bytes
    }
}

/// The bytes of permissions with these rows.
pub fn permissions(rows: &[u64]) -> Vec<u8> {
    rows.iter().flat_map(|row| row.to_le_bytes()).collect()
}

/// The mask of the first so many states.
fn all_states(states: u8) -> u16 {
    ((1u32 << states) - 1) as u16
}

/// A random workflow that is accepted. Some states cannot be reached or left, some have no final state
/// or no transition.
pub fn plan(random: &mut Random) -> Plan {
    let states = random.pick(&[1, 2, 2, 3, 3, 4, 6, 16]);
    let numbers = NUMBERS.iter();
    let mut pairs: Vec<(u8, u8)> =
        numbers.flat_map(|number| (0..states).map(move |state| (state, *number))).collect();
    let wanted = random.pick(&[0, 1, 4, 9, 9, 18, 18, 64]);
    let mut transitions = Vec::new();
    while transitions.len() < wanted && !pairs.is_empty() {
        let (state, number) = pairs.swap_remove(random.below(pairs.len()));
        transitions.push([state, number, random.below(states.into()) as u8]);
    }
    let some = random.word() as u16 & all_states(states);
    let final_states = random.pick(&[some, some, some, all_states(states), 0]);
    Plan { states, final_states, transitions }
}

/// Random rows of actions for so many roles: most give many of the numbers, in some cases only the last
/// role gives any, or none does.
fn rows(random: &mut Random, roles: usize) -> Vec<u64> {
    let kind = random.below(10);
    let row = |random: &mut Random, role: usize| match kind {
        0 => 0,
        1 if role + 1 < roles => 0,
        1 => u64::MAX,
        2 | 3 => random.bits() & random.bits(),
        _ => random.bits() | random.bits(),
    };
    (0..roles).map(|role| row(random, role)).collect()
}

/// Random permissions for so many roles and a random workflow, both accepted.
pub fn given(random: &mut Random, roles: usize) -> Given {
    let rows = rows(random, roles);
    Given { permissions: permissions(&rows), workflow: plan(random).bytes() }
}

/// A number for an action: most often one that a transition has in the present state.
fn number(random: &mut Random, monitor: &Monitor<Taken>) -> u8 {
    let workflow = monitor.secure().map(|secure| &secure.workflow);
    let arrows = workflow.map_or(&[][..], |workflow| &workflow.transitions);
    let leaving: Vec<u8> = arrows
        .iter()
        .filter(|arrow| arrow.state == monitor.state())
        .map(|arrow| arrow.action)
        .collect();
    match random.below(20) {
        0 => random.pick(&[64, 65, 127, 128, 255]),
        1..=4 => random.pick(&NUMBERS),
        _ if leaving.is_empty() => random.pick(&NUMBERS),
        _ => random.pick(&leaving),
    }
}

/// A user for the action with this number: most often one who may execute it.
fn user(random: &mut Random, monitor: &Monitor<Taken>, number: u8) -> u32 {
    let may = |secure: &Secure, user: usize| {
        monitor.held(user).iter().any(|role| secure.permissions.contains(&(*role, number)))
    };
    let authorized: Vec<usize> = (0..monitor.users())
        .filter(|user| monitor.secure().is_none_or(|secure| may(secure, *user)))
        .collect();
    if authorized.is_empty() || random.percent(20) {
        return random.below(monitor.users()) as u32;
    }
    random.pick(&authorized) as u32
}

/// So many events that lead through the workflow, with wrong ones among them, and at times a close.
fn walk(random: &mut Random, case: &Case, count: usize) -> Vec<u32> {
    let mut monitor: Monitor<Taken> = case.open().expect("a case to walk in opens");
    let mut events = Vec::new();
    for _ in 0..count {
        let word = match random.below(20) {
            0..=12 => {
                let number = number(random, &monitor);
                numbered(user(random, &monitor, number), number)
            }
            13 | 14 => CLOSE,
            _ => event(random, monitor.users(), case.roles.into()),
        };
        monitor.step(word);
        events.push(word);
    }
    events
}

/// A random case that runs under permissions and a workflow.
pub fn case(random: &mut Random) -> Case {
    let base =
        if random.percent(20) { cases::leavers_case(random) } else { cases::rich_case(random) };
    under_workflow(random, base)
}

/// The case under random permissions and a random workflow, with other events that lead through it.
pub fn under_workflow(random: &mut Random, case: Case) -> Case {
    let given = Some(given(random, case.roles.into()));
    let case = Case { given, ..case };
    let count = random.between(3, 18);
    Case { events: walk(random, &case, count), ..case }
}

/// A random case with five pairs whose permissions or workflow are refused, most of them for one
/// reason.
pub fn faulty_case(random: &mut Random) -> Case {
    let mut case = case(random);
    let roles = case.roles.into();
    case.given = Some(faulty(random, roles));
    if random.percent(5) {
        case.user_roles.push(0);
    }
    case
}

/// Permissions and a workflow of which one is damaged, in some cases to no harm.
pub fn faulty(random: &mut Random, roles: usize) -> Given {
    let Given { permissions, workflow } = given(random, roles);
    match random.below(8) {
        0 => Given { permissions: vec![], workflow },
        1 => Given { permissions, workflow: vec![] },
        2 | 3 => Given { permissions: other_length(random, permissions, 8), workflow },
        4 => Given { permissions, workflow: other_length(random, workflow, 3) },
        5 => {
            let length = random.between(1, 3);
            Given { permissions, workflow: workflow[..length].to_vec() }
        }
        _ => Given { permissions, workflow: faulty_plan(random).bytes() },
    }
}

/// Bytes that are shorter or longer by one, or by so many.
fn other_length(random: &mut Random, mut bytes: Vec<u8>, step: usize) -> Vec<u8> {
    let by = random.pick(&[1, step]);
    if random.percent(50) {
        bytes.truncate(bytes.len().saturating_sub(by));
    } else {
        bytes.extend((0..by).map(|_| random.word() as u8));
    }
    bytes
}

/// A workflow whose bytes have the right length, with one fault.
fn faulty_plan(random: &mut Random) -> Plan {
    let mut plan = plan(random);
    if plan.transitions.is_empty() {
        plan.transitions.push([0, random.pick(&NUMBERS), 0]);
    }
    let place = random.below(plan.transitions.len());
    let undeclared = plan.states + random.pick(&[0, 1, 100]);
    let arrow = plan.transitions[place];
    match random.below(8) {
        0 => plan.states = random.pick(&[0, 17, 255]),
        1 => plan.final_states |= 1u16.checked_shl(plan.states.into()).unwrap_or(0),
        2 => plan.transitions[place][0] = undeclared,
        3 => plan.transitions[place][2] = undeclared,
        4 => plan.transitions[place][1] = random.pick(&[64, 65, 128, 255]),
        5 => plan.transitions.push(arrow),
        6 => {
            let next = random.below(plan.states.into()) as u8;
            plan.transitions.insert(random.below(place + 1), [arrow[0], arrow[1], next]);
        }
        _ => {
            plan.states = 16;
            let pair = |number: u8| [number / 5, number % 5, 0];
            plan.transitions = (0..random.pick(&[65, 66, 80])).map(pair).collect();
        }
    }
    plan
}

#[cfg(test)]
mod tests {
    use super::*;
    use std::collections::BTreeSet;

    #[test]
    fn random_ones_are_accepted() {
        let mut random = Random::new(31);
        for turn in 0..500 {
            let roles = 1 + turn % 16;
            let Given { permissions, workflow } = given(&mut random, roles);
            assert!(matches!(Secure::read(roles, &permissions, &workflow), Ok(Some(_))));
        }
    }

    #[test]
    fn most_faulty_ones_are_refused() {
        let mut random = Random::new(32);
        let refused = |random: &mut Random| {
            let Given { permissions, workflow } = faulty(random, 3);
            Secure::read(3, &permissions, &workflow) == Err(19)
        };
        let count = (0..1000).filter(|_| refused(&mut random)).count();
        assert!(count > 900, "{count}");
    }

    #[test]
    fn walks_bring_about_every_number_of_an_action() {
        let mut random = Random::new(33);
        let mut seen = BTreeSet::new();
        for _ in 0..400 {
            let case = case(&mut random);
            let mut monitor: Monitor<Taken> = case.open().expect("it opens");
            seen.extend(case.events.iter().map(|word| monitor.step(*word).code));
        }
        for code in [0, 7, 9, 10, 11, 16, 17] {
            assert!(seen.contains(&code), "{code}");
        }
    }
}
