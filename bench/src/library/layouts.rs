//! The layouts that a monitor of some build has.

use std::mem::{align_of, offset_of, size_of, transmute};

use oskhrein::raw;

use crate::tuned::{Action, Configuration, Instance, Monitor};

/// The bytes of a monitor where the caller keeps it, padding among them. An earlier build's stands in
/// the first of them; all are copied whichever build is timed.
#[repr(C, align(8))]
#[derive(Clone, Copy)]
pub struct Stored([u8; BYTES]);

/// How many bytes a monitor has.
const BYTES: usize = 592;
/// How many it has in layouts 1 and 2.
const EARLIER_BYTES: usize = 260;

const _: () = {
    assert!(size_of::<Stored>() == size_of::<raw::Monitor>());
    assert!(align_of::<Stored>() == align_of::<raw::Monitor>());
    assert!(size_of::<Stored>() == size_of::<Monitor>());
};

impl Stored {
    /// All zero.
    pub const ZERO: Stored = Stored([0; BYTES]);

    /// With these bytes at the start.
    fn of(bytes: &[u8]) -> Stored {
        let mut stored = Stored::ZERO;
        stored.0[..bytes.len()].copy_from_slice(bytes);
        stored
    }
}

/// Where the parts of a monitor stand in its bytes.
#[derive(Clone, Copy)]
pub struct Layout {
    /// A monitor's bytes.
    pub write: fn(&Monitor) -> Stored,
    /// The monitor in some bytes. A status that is not kept there is zero.
    pub read: fn(&Stored) -> Monitor,
    /// Whether the status is kept.
    pub keeps_status: bool,
}

/// The layouts that a library may have, 4 to 1.
pub const LAYOUTS: [Layout; 4] = [
    Layout { write: in_full, read: from_full, keeps_status: true },
    Layout { write: without_status, read: from_without_status, keeps_status: false },
    Layout { write: in_parts, read: from_parts, keeps_status: false },
    Layout { write: in_one_piece, read: from_one_piece, keeps_status: false },
];

/// Layout 4: a configuration, then an instance, no padding.
fn in_full(monitor: &Monitor) -> Stored {
    // SAFETY: both are as long, and a monitor has no padding.
    Stored(unsafe { transmute::<Monitor, [u8; BYTES]>(*monitor) })
}

/// The other way.
fn from_full(stored: &Stored) -> Monitor {
    // SAFETY: both are as long, and every byte is one of a number.
    unsafe { transmute::<[u8; BYTES], Monitor>(stored.0) }
}

/// Where four bytes stand that layouts 3 and 4 have in different ways.
const COUNTS: usize = offset_of!(Monitor, instance) + offset_of!(Instance, words);

/// Layout 3: as layout 4, but two bytes for the policy's length, and no status.
fn without_status(monitor: &Monitor) -> Stored {
    let Instance { words, taken, closed, .. } = monitor.instance;
    let mut stored = in_full(monitor);
    stored.0[COUNTS..][..4].copy_from_slice(&[words, 0, taken, closed]);
    stored
}

/// The other way.
fn from_without_status(stored: &Stored) -> Monitor {
    let mut monitor = from_full(stored);
    let [words, _, taken, closed] = word(&stored.0, COUNTS).to_le_bytes();
    monitor.instance = Instance { words, taken, closed, status: 0, ..monitor.instance };
    monitor
}

/// The bytes of rows of roles.
fn rows(user_roles: &[u16; 16]) -> Vec<u8> {
    user_roles.iter().flat_map(|row| row.to_le_bytes()).collect()
}

/// Layout 2: rows, the counts, policy, actions, the policy's length, their number, the mark.
fn in_parts(monitor: &Monitor) -> Stored {
    let Monitor { configuration, instance } = monitor;
    let mut bytes = rows(&configuration.user_roles);
    bytes.extend((configuration.users as u16).to_le_bytes());
    bytes.extend((configuration.roles as u16).to_le_bytes());
    instance.policy.iter().for_each(|word| bytes.extend(word.to_le_bytes()));
    for action in instance.actions {
        bytes.extend(action.user.to_le_bytes());
        bytes.extend(action.met.to_le_bytes());
    }
    bytes.extend([instance.words, 0, instance.taken, instance.closed]);
    debug_assert_eq!(bytes.len(), EARLIER_BYTES);
    Stored::of(&bytes)
}

/// The other way.
fn from_parts(Stored(bytes): &Stored) -> Monitor {
    let action = |at: usize| Action { user: word(bytes, at), met: word(bytes, at + 4) };
    let configuration = Configuration {
        user_roles: std::array::from_fn(|user| row(bytes, 2 * user)),
        users: row(bytes, 32).into(),
        roles: row(bytes, 34).into(),
        ..Configuration::default()
    };
    let instance = Instance {
        policy: std::array::from_fn(|place| word(bytes, 36 + 4 * place)),
        actions: std::array::from_fn(|place| action(160 + 8 * place)),
        words: bytes[256],
        taken: bytes[258],
        closed: bytes[259],
        ..Instance::default()
    };
    Monitor { configuration, instance }
}

/// Layout 1: policy, its length, the counts, rows, actions, their number, the mark; padding zero.
fn in_one_piece(monitor: &Monitor) -> Stored {
    let Monitor { configuration, instance } = monitor;
    let mut bytes = Vec::new();
    instance.policy.iter().for_each(|word| bytes.extend(word.to_le_bytes()));
    bytes.extend([instance.words, configuration.users as u8, configuration.roles as u8, 0]);
    bytes.extend(rows(&configuration.user_roles));
    for action in instance.actions {
        bytes.extend([action.user as u8, 0, 0, 0]);
        bytes.extend(action.met.to_le_bytes());
    }
    bytes.extend([instance.taken, instance.closed, 0, 0]);
    debug_assert_eq!(bytes.len(), EARLIER_BYTES);
    Stored::of(&bytes)
}

/// The other way.
fn from_one_piece(Stored(bytes): &Stored) -> Monitor {
    let action = |at: usize| Action { user: bytes[at].into(), met: word(bytes, at + 4) };
    let [words, users, roles] = [124, 125, 126].map(|at| bytes[at]);
    let configuration = Configuration {
        user_roles: std::array::from_fn(|user| row(bytes, 128 + 2 * user)),
        users: users.into(),
        roles: roles.into(),
        ..Configuration::default()
    };
    let instance = Instance {
        policy: std::array::from_fn(|place| word(bytes, 4 * place)),
        actions: std::array::from_fn(|place| action(160 + 8 * place)),
        words,
        taken: bytes[256],
        closed: bytes[257],
        ..Instance::default()
    };
    Monitor { configuration, instance }
}

/// The number of 32 bits at a place.
fn word(bytes: &[u8], at: usize) -> u32 {
    u32::from_le_bytes([0, 1, 2, 3].map(|byte| bytes[at + byte]))
}

/// The number of 16 bits at a place.
fn row(bytes: &[u8], at: usize) -> u16 {
    u16::from_le_bytes([bytes[at], bytes[at + 1]])
}

#[cfg(test)]
mod tests {
    use super::*;

    #[test]
    fn each_layout_reads_what_it_writes() {
        let mut monitor = Monitor::default();
        let words = [9 << 24, 1 << 24, 2 << 24 | 8];
        monitor.open((16, 9), &words, &[0x1a5; 16], (&[], &[])).expect("it opens");
        monitor.instance.actions[..2].fill(Action { user: 15, met: 0x7654_3210 });
        (monitor.instance.taken, monitor.instance.closed) = (2, 1);
        for layout in LAYOUTS {
            monitor.instance.status = if layout.keeps_status { b'd' } else { 0 };
            assert_eq!((layout.read)(&(layout.write)(&monitor)), monitor);
        }
    }
}
