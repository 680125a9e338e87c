//! The bytes of a case file: three pairs of offset and length, then policy, grants and events; or five,
//! with permissions and workflow behind these.

use crate::names::Counts;

/// The bytes of a pair.
const PAIR: usize = 4;
/// The most bytes of a case file.
const MOST_BYTES: usize = 4096;
/// The most bytes of its events.
const MOST_EVENT_BYTES: usize = 1024;
/// The most events.
pub const MOST_EVENTS: usize = MOST_EVENT_BYTES / 4;
/// The parts, in order.
const PARTS: [&str; 5] = ["policy", "grants", "events", "permissions", "workflow"];
/// How many parts every file has.
const LEAST_PARTS: usize = 3;

/// What a case file says. Whether an opening accepts it is the library's matter.
#[derive(Clone, Debug, Default, PartialEq, Eq)]
pub struct Case {
    /// The number of users.
    pub users: u8,
    /// The number of roles.
    pub roles: u8,
    /// The policy words.
    pub policy: Vec<u32>,
    /// For each user the roles held, bit r for role r.
    pub grants: Vec<u16>,
    /// The event words.
    pub events: Vec<u32>,
    /// What the last two of five pairs say.
    pub secure: Option<Secure>,
}

/// The bytes of permissions and of a workflow, in form or not. Empty ones are not given.
#[derive(Clone, Debug, Default, PartialEq, Eq)]
pub struct Secure {
    /// The permissions.
    pub permissions: Vec<u8>,
    /// The workflow.
    pub workflow: Vec<u8>,
}

impl Case {
    /// How many users and roles it declares.
    pub fn counts(&self) -> Counts {
        Counts { users: self.users, roles: self.roles }
    }
}

/// The number of 16 bits at this place, low byte first.
fn number(bytes: &[u8], place: usize) -> usize {
    usize::from(u16::from_le_bytes([bytes[place], bytes[place + 1]]))
}

/// The words of four bytes each, low byte first.
fn words(bytes: &[u8]) -> Vec<u32> {
    let word = |four: &[u8]| u32::from_le_bytes([four[0], four[1], four[2], four[3]]);
    bytes.chunks_exact(4).map(word).collect()
}

/// How many pairs a file has, by where its first part begins.
fn pairs(bytes: &[u8]) -> Result<usize, String> {
    let [least, most] = [LEAST_PARTS, PARTS.len()].map(|count| PAIR * count);
    match number(bytes, 0) {
        offset if offset == least || offset == most => Ok(offset / PAIR),
        offset => Err(format!("the policy part begins at byte {offset}, not at {least} or {most}")),
    }
}

/// That a file is not too short for so many pairs.
fn has_pairs(bytes: &[u8], count: usize) -> Result<(), String> {
    let (length, least) = (bytes.len(), PAIR * count);
    if length < least {
        return Err(format!("{length} bytes, fewer than the {least} of the pairs"));
    }
    Ok(())
}

/// The parts of a file, or why it has none.
fn parts(bytes: &[u8]) -> Result<Vec<&[u8]>, String> {
    let length = bytes.len();
    has_pairs(bytes, LEAST_PARTS)?;
    if length > MOST_BYTES {
        return Err(format!("{length} bytes, more than {MOST_BYTES}"));
    }
    let count = pairs(bytes)?;
    has_pairs(bytes, count)?;
    let mut found = Vec::new();
    let mut end = PAIR * count;
    for (part, name) in PARTS[..count].iter().enumerate() {
        let (offset, extent) = (number(bytes, PAIR * part), number(bytes, PAIR * part + 2));
        if offset != end {
            return Err(format!("the {name} part begins at byte {offset}, not at {end}"));
        }
        end += extent;
        let inside = bytes.get(offset..end);
        found.push(
            inside.ok_or(format!("the {name} part ends at byte {end} of a file of {length}"))?,
        );
    }
    if end != length {
        return Err(format!("{} bytes behind the {}", length - end, PARTS[count - 1]));
    }
    Ok(found)
}

/// Reads a case file.
///
/// # Errors
/// What is malformed (number 14).
pub fn read(bytes: &[u8]) -> Result<Case, String> {
    let parts = parts(bytes)?;
    let (policy, grants, events) = (parts[0], parts[1], parts[2]);
    for (name, part) in [("policy", policy), ("events", events)] {
        if part.len() % 4 != 0 {
            return Err(format!("{name} of {} bytes, no multiple of 4", part.len()));
        }
    }
    if events.len() > MOST_EVENT_BYTES {
        return Err(format!("events of {} bytes, more than {MOST_EVENT_BYTES}", events.len()));
    }
    if grants.len() < 2 || grants.len() % 2 != 0 {
        return Err(format!("grants of {} bytes, fewer than 2 or odd", grants.len()));
    }
    let rows = grants[2..].chunks_exact(2).map(|row| u16::from_le_bytes([row[0], row[1]]));
    Ok(Case {
        users: grants[0],
        roles: grants[1],
        policy: words(policy),
        grants: rows.collect(),
        events: words(events),
        secure: secure(&parts[LEAST_PARTS..]),
    })
}

/// What the parts behind the events say, if there are any.
fn secure(parts: &[&[u8]]) -> Option<Secure> {
    match parts {
        [permissions, workflow] => {
            Some(Secure { permissions: permissions.to_vec(), workflow: workflow.to_vec() })
        }
        _ => None,
    }
}

/// The bytes of a case that a text said, whose limits keep it far below the most bytes.
pub fn write(case: &Case) -> Vec<u8> {
    let policy: Vec<u8> = case.policy.iter().flat_map(|word| word.to_le_bytes()).collect();
    let rows = case.grants.iter().flat_map(|row| row.to_le_bytes());
    let grants: Vec<u8> = [case.users, case.roles].into_iter().chain(rows).collect();
    let events: Vec<u8> = case.events.iter().flat_map(|word| word.to_le_bytes()).collect();
    let mut parts = vec![policy, grants, events];
    if let Some(Secure { permissions, workflow }) = &case.secure {
        parts.extend([permissions.clone(), workflow.clone()]);
    }
    joined(&parts)
}

/// The pairs of some parts, and the parts.
fn joined(parts: &[Vec<u8>]) -> Vec<u8> {
    let mut bytes = Vec::new();
    let mut offset = PAIR * parts.len();
    for part in parts {
        bytes.extend((offset as u16).to_le_bytes());
        bytes.extend((part.len() as u16).to_le_bytes());
        offset += part.len();
    }
    assert!(offset <= MOST_BYTES, "a text's limits keep its case file short");
    bytes.extend(parts.concat());
    bytes
}
