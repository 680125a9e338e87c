//! Case files, well formed and malformed.

use reference::casefile::{join_parts, read_case};
use reference::examples::LISTING_L;
use reference::generate::case_files;

use crate::file;

#[test]
fn malformed_files_say_why() {
    let reason = |bytes: &[u8]| file::read(bytes).expect_err("malformed");
    assert_eq!(reason(&[12]), "1 bytes, fewer than the 12 of the pairs");
    assert_eq!(reason(&[12; 5000]), "5000 bytes, more than 4096");
    assert_eq!(reason(&[13; 12]), "the policy part begins at byte 3341, not at 12 or 20");
    assert_eq!(reason(&LISTING_L[..95]), "the events part ends at byte 96 of a file of 95");
    assert_eq!(reason(&[&LISTING_L[..], &[0]].concat()), "1 bytes behind the events");
    let parts =
        |policy: &[u8], grants: &[u8], events: &[u8]| reason(&join_parts(policy, grants, events));
    assert_eq!(parts(&[0; 5], &[1, 1], &[]), "policy of 5 bytes, no multiple of 4");
    assert_eq!(parts(&[], &[1, 1], &[0; 2]), "events of 2 bytes, no multiple of 4");
    assert_eq!(parts(&[], &[1, 1], &[0; 1028]), "events of 1028 bytes, more than 1024");
    assert_eq!(parts(&[], &[1], &[]), "grants of 1 bytes, fewer than 2 or odd");
    assert_eq!(parts(&[], &[1; 5], &[]), "grants of 5 bytes, fewer than 2 or odd");
}

/// A file of five pairs with these lengths of its parts, all zero but for the pairs, from this offset on.
fn five_pairs(first: u16, lengths: [u16; 5]) -> Vec<u8> {
    let mut bytes = Vec::new();
    let mut offset = first;
    for length in lengths {
        bytes.extend(offset.to_le_bytes());
        bytes.extend(length.to_le_bytes());
        offset += length;
    }
    bytes.resize(offset.max(20).into(), 0);
    bytes
}

#[test]
fn malformed_files_of_five_pairs_say_why() {
    let reason = |bytes: &[u8]| file::read(bytes).expect_err("malformed");
    let well_formed = five_pairs(20, [4, 2, 4, 3, 1]);
    assert!(file::read(&well_formed).is_ok(), "the lengths of the last two are never malformed");
    assert_eq!(reason(&well_formed[..19]), "19 bytes, fewer than the 20 of the pairs");
    assert_eq!(
        reason(&[20, 0, 0, 0, 20, 0, 0, 0, 20, 0, 0, 0]),
        "12 bytes, fewer than the 20 of the pairs"
    );
    let first = "the policy part begins at byte 16, not at 12 or 20";
    assert_eq!(reason(&five_pairs(16, [4, 2, 4, 3, 1])), first);
    assert_eq!(reason(&well_formed[..33]), "the workflow part ends at byte 34 of a file of 33");
    assert_eq!(reason(&[&well_formed[..], &[0]].concat()), "1 bytes behind the workflow");
    let mut gap = well_formed.clone();
    gap[12] += 1;
    assert_eq!(reason(&gap), "the permissions part begins at byte 31, not at 30");
    assert_eq!(reason(&five_pairs(20, [4, 3, 4, 3, 1])), "grants of 3 bytes, fewer than 2 or odd");
}

#[test]
fn a_part_too_long_for_a_text_is_shown_as_bytes() {
    let bytes = five_pairs(20, [4, 2, 0, 1025, 0]);
    let shown = crate::show::file(&bytes);
    assert_eq!(shown.malformed, None);
    assert!(shown.text.starts_with("# only bytes say this, since "), "{}", shown.text);
    assert_eq!(crate::text::write(&shown.text), Ok(bytes));
}

#[test]
fn files_hold_what_the_papers_say() {
    for (name, bytes) in case_files(6, 3000) {
        let (Ok(own), Ok(other)) = (file::read(&bytes), read_case(&bytes)) else {
            continue;
        };
        let own = (own.users, own.roles, own.policy, own.grants, own.events);
        let other = (other.users, other.roles, other.policy, other.user_roles, other.events);
        assert_eq!(own, other, "{name}");
    }
}
