//! What the tests share: document 01's policy F and listing L, and document 004's payment workflow.

use oskhrein::{satisfies, Monitor, Permissions, Refusal, SecureWorkflow, Workflow, Workspace};

/// Policy F, Example 3 of document 004.
pub const POLICY_F: [u32; 10] = [
    0x08000000, 0x09000000, 0x02000000, 0x06000000, 0x02000002, 0x09000000, 0x02000000, 0x02000000,
    0x05000000, 0x01000000,
];

/// The events of listing L.
#[allow(dead_code)]
pub const EVENTS_L: [u32; 9] = [
    0x01000001, 0x01000102, 0x02000102, 0x02000202, 0x04000000, 0x01000203, 0x01000004, 0x04000000,
    0x01000004,
];

/// A monitor of policy F with listing L's counts and roles.
#[allow(dead_code)]
pub fn open_l() -> Monitor {
    Monitor::open(3, 3, &POLICY_F, &[2, 1, 0]).expect("listing L opens")
}

/// The number of an answer: 0 is acceptance.
pub fn number<T>(answer: Result<T, Refusal>) -> u8 {
    answer.err().map_or(0, Refusal::number)
}

/// The number answered to an event, and the letter of the status after it.
#[allow(dead_code)]
pub fn step(monitor: &mut Monitor, word: u32, workspace: &mut Workspace) -> (u8, char) {
    let number = number(monitor.event_word(word, workspace));
    (number, monitor.status().expect("it is well formed").letter())
}

/// A workspace that speaks of no action under a policy of 31 words, so that a call which fills it for
/// another policy is seen.
#[allow(dead_code)]
pub fn marked() -> Workspace {
    let mut policy = [0x06000000; 31];
    policy[15..].fill(0x01000000);
    let mut workspace = Workspace::new();
    satisfies(1, 1, &policy, &[1], &[0; 16], &mut workspace).expect("it is accepted");
    workspace
}

/// The payment workflow of document 004, Examples 1 and 2: an accountant (role 0) prepares a check (2),
/// a clerk (1) receives the invoice (1) and issues the check (4), a manager (2) approves (3) or rejects
/// (5).
#[allow(dead_code)]
pub fn payment() -> SecureWorkflow {
    let permissions =
        Permissions::new(3).and_then(|own| own.give(0, &[2])?.give(1, &[1, 4])?.give(2, &[3, 5]));
    let transitions = [(0, 1, 1), (1, 2, 2), (2, 3, 3), (2, 5, 1), (3, 3, 3), (3, 5, 1), (3, 4, 4)];
    let workflow = transitions
        .into_iter()
        .try_fold(Workflow::new(5).expect("it is in form"), |own, (state, action, next)| {
            own.transition(state, action, next)
        });
    let workflow = workflow.and_then(|own| own.finish_in(4));
    SecureWorkflow::new(permissions.expect("they are in form"), workflow.expect("it is in form"))
}

/// A monitor of policy F with listing L's counts and roles, under the payment workflow.
#[allow(dead_code)]
pub fn open_payment() -> Monitor {
    Monitor::open_with(3, 3, &POLICY_F, &[2, 1, 0], Some(&payment())).expect("it opens")
}
