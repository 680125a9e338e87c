//! The judge program on random and damaged bytes.

use reference::casefile::{join_parts, read_case, write_case};
use reference::generate::{cases, edges, secure, Random};
use reference::secure::Given;

use crate::judge::Judge;
use crate::report::Report;

/// A kind of bytes: its name and how they are made.
type Kind = (&'static str, fn(&mut Random) -> Vec<u8>);

/// All kinds.
const KINDS: [Kind; 9] = [
    ("noise", noise),
    ("noise in parts", noise_in_parts),
    ("noise in five parts", noise_in_five_parts),
    ("likely workflows", likely_workflows),
    ("likely words", likely_words),
    ("flipped bits", flipped),
    ("damaged files", damaged),
    ("spliced files", spliced),
    ("large files", large),
];

/// Compares on so many files of each kind.
pub fn compare(seed: u64, rounds: usize) -> Result<Report, String> {
    let mut judge = Judge::new(seed, false)?;
    for (name, make) in KINDS {
        let mut random = Random::new(seed);
        for round in 0..rounds {
            if judge.is_enough() {
                break;
            }
            judge.check(name, round, &(format!("round {round}"), make(&mut random)));
        }
    }
    Ok(judge.report())
}

/// So many random bytes.
fn random_bytes(random: &mut Random, length: usize) -> Vec<u8> {
    (0..length).map(|_| random.word() as u8).collect()
}

/// Some case file: a random one, or an edge.
fn some_file(random: &mut Random) -> Vec<u8> {
    if random.percent(20) {
        return random.pick(&edges::all()).1;
    }
    let turn = random.below(64);
    cases::random_file(random, turn).1
}

/// Random bytes, some of them behind the start of the pairs.
fn noise(random: &mut Random) -> Vec<u8> {
    let length = random.pick(&[0, 1, 11, 12, 13, 20, 60, 200]);
    let length = random.below(length + 1);
    let mut bytes = random_bytes(random, length);
    if random.percent(50) && bytes.len() > 1 {
        bytes[0] = random.pick(&[12, 12, 20]);
        bytes[1] = 0;
    }
    bytes
}

/// Three parts of random bytes, most of them of lengths that are allowed.
fn noise_in_parts(random: &mut Random) -> Vec<u8> {
    let most = random.pick(&[4, 40, 140]);
    let mut part = |step: usize| {
        let length = random.below(most / step + 1) * step;
        let length = if random.percent(10) { length + 1 } else { length };
        random_bytes(random, length)
    };
    let (policy, grants, events) = (part(4), part(2), part(4));
    join_parts(&policy, &[vec![2, 3], grants].concat(), &events)
}

/// The parts of a well-formed file with random bytes for permissions and workflow, most of them of
/// lengths that are allowed.
fn noise_in_five_parts(random: &mut Random) -> Vec<u8> {
    let mut case = secure::case(random);
    let count = random.below(6);
    let mut workflow = random_bytes(random, 4 + 3 * count);
    workflow[1] = count as u8;
    let length = 8 * usize::from(case.roles) + usize::from(random.percent(5));
    let permissions = random_bytes(random, length);
    case.given = Some(Given { permissions, workflow });
    write_case(&case)
}

/// The same with bytes that are likely to mean something.
fn likely_workflows(random: &mut Random) -> Vec<u8> {
    let mut case = secure::case(random);
    let count = random.between(1, 6);
    let mut workflow: Vec<u8> = (0..4 + 3 * count).map(|_| random.below(4) as u8).collect();
    (workflow[0], workflow[1], workflow[3]) = (random.between(2, 4) as u8, count as u8, 0);
    let permissions = vec![15; 8 * usize::from(case.roles)];
    case.given = Some(Given { permissions, workflow });
    case.events.iter_mut().filter(|word| **word >> 24 == 1).for_each(|word| *word &= 0xffff_ff03);
    write_case(&case)
}

/// A word whose kind, user and role are likely to mean something.
pub fn likely_word(random: &mut Random) -> u32 {
    let kind = random.between(0, 10) as u32;
    let operand = random.pick(&[0, 0, 0, 1, 2, 3, 0x100, 0x101, 0x8000]);
    kind << 24 | operand
}

/// Parts of words that are likely to mean something.
fn likely_words(random: &mut Random) -> Vec<u8> {
    let mut words = |most: usize| -> Vec<u8> {
        let count = random.below(most + 1);
        (0..count).flat_map(|_| likely_word(random).to_le_bytes()).collect()
    };
    let (policy, events) = (words(5), words(12));
    let (users, roles) = (random.between(0, 3) as u8, random.between(1, 3) as u8);
    let row = |random: &mut Random| [random.below(4) as u8, 0];
    let rows: Vec<u8> = (0..users).flat_map(|_| row(random)).collect();
    join_parts(&policy, &[vec![users, roles], rows].concat(), &events)
}

/// A well-formed file with some bits behind its pairs flipped.
fn flipped(random: &mut Random) -> Vec<u8> {
    let mut bytes = some_file(random);
    for _ in 0..random.between(1, 4) {
        if bytes.len() > 12 {
            let place = random.between(12, bytes.len() - 1);
            bytes[place] ^= 1 << random.below(8);
        }
    }
    bytes
}

/// A file damaged anywhere, several times.
fn damaged(random: &mut Random) -> Vec<u8> {
    let mut bytes = some_file(random);
    for _ in 0..random.between(1, 3) {
        bytes = cases::damaged(random, &bytes);
    }
    bytes
}

/// The parts of one file with the policy of another, or the start of one with the end of another.
fn spliced(random: &mut Random) -> Vec<u8> {
    let (one, other) = (some_file(random), some_file(random));
    if let (Ok(mut case), Ok(donor)) = (read_case(&one), read_case(&other)) {
        case.policy = donor.policy;
        return write_case(&case);
    }
    let cut = random.below(one.len() + 1);
    [&one[..cut], &other[random.below(other.len() + 1)..]].concat()
}

/// Files about as long as a file may be, with long parts.
fn large(random: &mut Random) -> Vec<u8> {
    let policy = 4 * random.pick(&[1, 31, 32, 500, 1019]);
    let events = 4 * random.pick(&[0, 1, 255, 256, 257]);
    let left = 4096usize.saturating_sub(12 + policy + events);
    let grants = (left + random.below(6)).saturating_sub(3).max(2);
    let policy = random_bytes(random, policy);
    let grants = random_bytes(random, grants);
    let events = random_bytes(random, events);
    join_parts(&policy, &grants, &events)
}
