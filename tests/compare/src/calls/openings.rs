//! Opening a monitor: the number, the place of a policy's fault, and the whole monitor, which is blank
//! after a refusal.

use oskhrein::raw::{Calls, Monitor};
use reference::casefile::{read_case, Case};
use reference::code;
use reference::generate::{cases, edges, Random};
use reference::place::place_of;
use reference::raw::RawInstance;
use reference::secure::Given;

use super::Reader;
use crate::faults::Policy;
use crate::fuzz::likely_word;
use crate::library::laid_out;
use crate::refusals::Openings;
use crate::report::{answer_text, Seen};

/// What the caller's monitor holds before it is opened: nothing that an opening writes.
fn unopened() -> Monitor {
    Monitor::from_bytes(&[0xa5; Monitor::BYTES])
}

/// Counts, words and rows that have little to do with each other.
fn unrelated(random: &mut Random) -> Case {
    let count = |random: &mut Random| random.pick(&[0, 1, 2, 3, 15, 16, 17, 255]);
    let (users, roles) = (count(random), count(random));
    let policy = (0..random.below(40)).map(|_| likely_word(random)).collect();
    let rows = random.pick(&[users.into(), users.into(), 0, 1, 16, 17, 300]);
    let user_roles = (0..rows).map(|_| random.pick(&[0, 1, 2, 3, 0x8000])).collect();
    let mut part = || {
        let length = random.pick(&[0, 0, 4, 7, 8, 16, 24]);
        (0..length).map(|_| random.below(4) as u8).collect()
    };
    let given = Some(Given { permissions: part(), workflow: part() });
    Case { users, roles, policy, user_roles, events: vec![], given }
}

/// Compares on all edges, on so many random cases and on as many with unrelated parts.
pub fn compare(library: &Calls, seed: u64, count: usize) -> (Reader, Seen) {
    let mut reader = Reader::new("open", &[0, 1, 2, 3, 4, 5, 6, 19]);
    let mut refused = Openings::new("open", true);
    for (name, bytes) in edges::all() {
        if let Ok(case) = read_case(&bytes) {
            check(&mut reader, &mut refused, library, &name, &case);
        }
    }
    let mut random = Random::new(seed);
    for turn in 0..count {
        if reader.call.group.is_enough() {
            break;
        }
        let (kind, bytes) = cases::random_file(&mut random, turn);
        let case = read_case(&bytes).unwrap_or_else(|_| cases::misworded(&mut random));
        check(&mut reader, &mut refused, library, &format!("{kind} {turn} of seed {seed}"), &case);
        let case = unrelated(&mut random);
        check(
            &mut reader,
            &mut refused,
            library,
            &format!("unrelated {turn} of seed {seed}"),
            &case,
        );
    }
    (reader, refused.seen())
}

/// One opening.
fn check(reader: &mut Reader, refused: &mut Openings, library: &Calls, label: &str, case: &Case) {
    let Case { users, roles, policy: words, user_roles, .. } = case;
    let (permissions, workflow) = case.given();
    let policy = Policy { users: (*users).into(), roles: (*roles).into(), words };
    let (code, raw) =
        RawInstance::open_secure(policy.users, policy.roles, words, user_roles, case.given());
    if code == code::SECURE {
        refused.count(case);
    }
    let place = place_of(code, policy.users, policy.roles, words);
    let (mut monitor, mut lent) = (unopened(), reader.lent_byte());
    let byte = lent.byte();
    let answer =
        library.open(&mut monitor, *users, *roles, words, user_roles, permissions, workflow, byte);
    let expected = laid_out(&raw);
    let same = answer == code as u8 && monitor == expected && lent.holds(place);
    reader.check(policy, answer, same, || {
        let (answer, place) = (answer_text(answer), lent.against(place));
        format!(
            "{label}\n  users {users}, roles {roles}, policy {words:08x?}, rows {user_roles:04x?}
  permissions {permissions:02x?}, workflow {workflow:02x?}
  expected {code} and {expected:x?}\n  got {answer} and {monitor:x?}\n{place}"
        )
    });
}
