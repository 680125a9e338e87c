//! Case files and what the judge program prints (01, "Case file and program"; 02, E4).

use crate::code::{self, Code};
use crate::monitor::{Kept, Monitor, Taken};
use crate::place::place_of;
use crate::secure::Given;

/// The most bytes that a case file may have.
pub const MOST_BYTES: usize = 4096;
/// The most bytes that the events of a case file may have.
pub const MOST_EVENT_BYTES: usize = 1024;

/// A case: what one case file says, not yet judged by the opening.
#[derive(Clone, Debug, Default, PartialEq, Eq)]
pub struct Case {
    /// The number of users.
    pub users: u8,
    /// The number of roles.
    pub roles: u8,
    /// The policy words.
    pub policy: Vec<u32>,
    /// The rows of roles, bit r for role r.
    pub user_roles: Vec<u16>,
    /// The event words.
    pub events: Vec<u32>,
    /// Permissions and workflow, if the file has five pairs; both may be empty.
    pub given: Option<Given>,
}

impl Case {
    /// Permissions and workflow as an opening is given them.
    pub fn given(&self) -> (&[u8], &[u8]) {
        self.given.as_ref().map_or((&[], &[]), |given| (&given.permissions, &given.workflow))
    }

    /// The monitor, opened.
    ///
    /// # Errors
    /// The number of a refused opening.
    pub fn open<A: Kept>(&self) -> Result<Monitor<A>, Code> {
        let Case { users, roles, policy, user_roles, .. } = self;
        let (users, roles) = ((*users).into(), (*roles).into());
        Monitor::open_secure(users, roles, policy, user_roles, self.given())
    }
}

/// The bytes of the parts: policy, grants and events, and where there are five, permissions and
/// workflow.
struct Parts<'a> {
    policy: &'a [u8],
    user_roles: &'a [u8],
    events: &'a [u8],
    given: Option<[&'a [u8]; 2]>,
}

/// The number of 16 bits at this place, low byte first.
fn number(bytes: &[u8], place: usize) -> usize {
    usize::from(bytes[place]) + 256 * usize::from(bytes[place + 1])
}

/// How many pairs a file has by its first offset, which is where they end.
fn pairs(bytes: &[u8]) -> Option<usize> {
    match number(bytes, 0) {
        12 => Some(3),
        20 if bytes.len() >= 20 => Some(5),
        _ => None,
    }
}

/// Takes the parts out of a file, if its size and its pairs are as they should be.
fn parts(bytes: &[u8]) -> Option<Parts<'_>> {
    if bytes.len() < 12 || bytes.len() > MOST_BYTES {
        return None;
    }
    let mut found = Vec::new();
    let pairs = pairs(bytes)?;
    let mut end = 4 * pairs;
    for pair in 0..pairs {
        let offset = number(bytes, 4 * pair);
        let length = number(bytes, 4 * pair + 2);
        if offset != end {
            return None;
        }
        end = offset + length;
        found.push(bytes.get(offset..end)?);
    }
    if end != bytes.len() {
        return None;
    }
    let given = (pairs == 5).then(|| [found[3], found[4]]);
    Some(Parts { policy: found[0], user_roles: found[1], events: found[2], given })
}

/// Whether the lengths of the parts are as they should be; those of permissions and workflow are the
/// opening's matter.
fn lengths_fit(parts: &Parts) -> bool {
    parts.policy.len().is_multiple_of(4)
        && parts.events.len().is_multiple_of(4)
        && parts.events.len() <= MOST_EVENT_BYTES
        && parts.user_roles.len() >= 2
        && parts.user_roles.len().is_multiple_of(2)
}

/// The words of four bytes each, low byte first.
fn words(bytes: &[u8]) -> Vec<u32> {
    let word =
        |chunk: &[u8]| chunk.iter().rev().fold(0, |word, byte| word * 256 + u32::from(*byte));
    bytes.chunks_exact(4).map(word).collect()
}

/// Reads a case file.
///
/// # Errors
/// 14 if it is malformed.
pub fn read_case(bytes: &[u8]) -> Result<Case, Code> {
    let parts = parts(bytes).filter(lengths_fit).ok_or(code::CASE_MALFORMED)?;
    let rows = parts.user_roles[2..].chunks_exact(2);
    Ok(Case {
        users: parts.user_roles[0],
        roles: parts.user_roles[1],
        policy: words(parts.policy),
        user_roles: rows.map(|row| u16::from(row[0]) + 256 * u16::from(row[1])).collect(),
        events: words(parts.events),
        given: parts.given.map(|[permissions, workflow]| Given {
            permissions: permissions.to_vec(),
            workflow: workflow.to_vec(),
        }),
    })
}

/// The bytes of a case file; a part that is too long for its pair makes a file of no use.
pub fn write_case(case: &Case) -> Vec<u8> {
    let policy: Vec<u8> = case.policy.iter().flat_map(|word| word.to_le_bytes()).collect();
    let mut user_roles = vec![case.users, case.roles];
    user_roles.extend(case.user_roles.iter().flat_map(|row| row.to_le_bytes()));
    let events: Vec<u8> = case.events.iter().flat_map(|word| word.to_le_bytes()).collect();
    match &case.given {
        None => join_parts(&policy, &user_roles, &events),
        Some(Given { permissions, workflow }) => {
            join_all(&[&policy, &user_roles, &events, permissions, workflow])
        }
    }
}

/// The bytes of a case file with these three parts, whatever they hold.
pub fn join_parts(policy: &[u8], user_roles: &[u8], events: &[u8]) -> Vec<u8> {
    join_all(&[policy, user_roles, events])
}

/// The bytes of a file with a pair for each of these parts, whatever they hold.
pub fn join_all(parts: &[&[u8]]) -> Vec<u8> {
    let mut bytes = Vec::new();
    let mut offset = 4 * parts.len();
    for part in parts {
        bytes.extend((offset as u16).to_le_bytes());
        bytes.extend((part.len() as u16).to_le_bytes());
        offset += part.len();
    }
    bytes.extend(parts.concat());
    bytes
}

/// What a case came to: for each event its number and the status after it, and the number of
/// actions that were answered 0.
#[derive(Clone, Debug, PartialEq, Eq)]
pub struct Report {
    /// The number and the status letter for each event.
    pub answers: Vec<(Code, char)>,
    /// The actions answered 0.
    pub taken: usize,
}

impl Report {
    /// The lines that the judge prints.
    pub fn text(&self) -> String {
        let mut text = String::new();
        for (place, (code, letter)) in self.answers.iter().enumerate() {
            text += &format!("{} {code} {letter}\n", place + 1);
        }
        text + &format!("taken {}\n", self.taken)
    }
}

/// Runs a case from its opening through all its events.
///
/// # Errors
/// The number of a refused opening.
pub fn run(case: &Case) -> Result<Report, Code> {
    let mut monitor: Monitor<Taken> = case.open()?;
    let mut report = Report { answers: Vec::new(), taken: 0 };
    for word in &case.events {
        let code = monitor.step(*word).code;
        if code == code::ACCEPTED && word >> 24 == 1 {
            report.taken += 1;
        }
        report.answers.push((code, monitor.status()));
    }
    assert_eq!(report.taken, monitor.taken().len(), "each action answered 0 is kept");
    Ok(report)
}

/// Exactly what the judge program prints for a case file.
pub fn judge(bytes: &[u8]) -> String {
    let case = match read_case(bytes) {
        Ok(case) => case,
        Err(refusal) => return format!("refused {refusal}\n"),
    };
    match run(&case) {
        Ok(report) => report.text(),
        Err(refusal) => refused(&case, refusal),
    }
}

/// What it prints for a refused opening: the number, and the place of a policy's fault (02, E2).
fn refused(case: &Case, refusal: Code) -> String {
    match place_of(refusal, case.users.into(), case.roles.into(), &case.policy) {
        Some(place) => format!("refused {refusal} at {place}\n"),
        None => format!("refused {refusal}\n"),
    }
}

#[cfg(test)]
mod tests {
    use super::*;
    use crate::examples::LISTING_L;

    #[test]
    fn sizes_and_pairs_are_14() {
        for length in [0, 1, 11, 12, 95] {
            assert_eq!(judge(&LISTING_L[..length]), "refused 14\n", "{length} bytes");
        }
        for place in 0..12 {
            let mut bytes = LISTING_L;
            bytes[place] ^= 4;
            assert_eq!(judge(&bytes), "refused 14\n", "byte {place}");
        }
        assert_eq!(judge(&[&LISTING_L[..], &[0]].concat()), "refused 14\n");
    }

    #[test]
    fn wrong_part_lengths_are_14_before_all_else() {
        let word = [0, 0, 0, 1];
        let files = [
            join_parts(&[], &[], &[]),
            join_parts(&word, &[1], &[]),
            join_parts(&word, &[1, 1, 1], &[]),
            join_parts(&word[..3], &[0, 0], &[]),
            join_parts(&word, &[0, 0], &word[..2]),
            join_parts(&word, &[0, 0], &[0; 1028]),
        ];
        for bytes in files {
            assert_eq!(judge(&bytes), "refused 14\n");
        }
    }

    #[test]
    fn empty_parts_are_fine() {
        assert_eq!(judge(&join_parts(&[], &[1, 1, 1, 0], &[])), "refused 1 at 0\n");
        assert_eq!(judge(&join_parts(&[], &[0, 1], &[])), "refused 5\n");
        assert_eq!(judge(&join_parts(&[0, 0, 0, 1], &[1, 1], &[])), "refused 6\n");
        assert_eq!(judge(&join_parts(&[0, 0, 0, 1], &[1, 1, 1, 0], &[])), "taken 0\n");
    }

    #[test]
    fn refused_policies_are_printed_with_their_place() {
        let [one, role, not, plus] = [1, 2, 4, 5].map(|kind| [0, 0, 0, kind]);
        let print = |policy: &[[u8; 4]]| judge(&join_parts(&policy.concat(), &[1, 1, 1, 0], &[]));
        assert_eq!(print(&[one, [0, 0, 0, 10], [1, 0, 0, 2]]), "refused 2 at 1\n");
        assert_eq!(print(&[one; 12]), "refused 3 at 1\n");
        assert_eq!(print(&[not; 31]), "refused 3 at 31\n");
        assert_eq!(print(&[[0, 0, 0, 8], role, not, plus, one]), "refused 4 at 2\n");
    }

    /// A file with these new parts, of one user who holds the only role.
    fn with_given(permissions: &[u8], workflow: &[u8]) -> Vec<u8> {
        let action = [5, 0, 0, 1];
        let events = [action, action, [0, 0, 0, 4]].concat();
        join_all(&[&[0, 0, 0, 1], &[1, 1, 1, 0], &events, permissions, workflow])
    }

    #[test]
    fn five_pairs_are_read_and_judged() {
        let (row, workflow) = ([32, 0, 0, 0, 0, 0, 0, 0], [2, 1, 2, 0, 0, 5, 1]);
        assert_eq!(judge(&with_given(&row, &workflow)), "1 0 c\n2 17 c\n3 0 d\ntaken 1\n");
        assert_eq!(judge(&with_given(&[0; 8], &workflow)), "1 16 o\n2 16 o\n3 11 o\ntaken 0\n");
        assert_eq!(judge(&with_given(&row, &[1, 0, 1, 0])), "1 17 o\n2 17 o\n3 11 o\ntaken 0\n");
        assert_eq!(judge(&with_given(&[], &[])), "1 0 c\n2 9 c\n3 0 d\ntaken 1\n");
        for (permissions, workflow) in
            [(&row[..], &[][..]), (&[], &workflow), (&row[1..], &workflow)]
        {
            assert_eq!(judge(&with_given(permissions, workflow)), "refused 19\n");
        }
        let case = read_case(&with_given(&row, &workflow)).expect("it is well formed");
        assert_eq!(write_case(&case), with_given(&row, &workflow));
    }

    #[test]
    fn other_first_offsets_and_short_files_are_14() {
        let parts: [&[u8]; 5] = [&[0, 0, 0, 1], &[1, 1, 1, 0], &[], &[], &[]];
        for pairs in [3, 5] {
            assert_eq!(judge(&join_all(&parts[..pairs])), "taken 0\n");
        }
        assert_eq!(judge(&join_all(&parts[..4])), "refused 14\n");
        assert_eq!(judge(&join_all(&[&parts[..], &[&[]]].concat())), "refused 14\n");
        let bare = join_all(&[&[][..]; 5]);
        for length in 12..=20 {
            assert_eq!(judge(&bare[..length]), "refused 14\n", "{length} bytes");
        }
    }

    #[test]
    fn large_files() {
        let policy = join_parts(&[1; 4080], &[1, 1, 1, 0], &[]);
        assert_eq!((policy.len(), judge(&policy)), (4096, "refused 1 at 0\n".to_string()));
        let rows = join_parts(&[0, 0, 0, 1], &[1; 4080], &[]);
        assert_eq!((rows.len(), judge(&rows)), (4096, "refused 6\n".to_string()));
        let longer = join_parts(&[0, 0, 0, 1], &[1; 4082], &[]);
        assert_eq!((longer.len(), judge(&longer)), (4098, "refused 14\n".to_string()));
    }

    #[test]
    fn events_up_to_1024_bytes_are_run() {
        let bytes = join_parts(&[0, 0, 0, 1], &[1, 1, 1, 0], &[0; 1024]);
        let text = judge(&bytes);
        assert_eq!(text.lines().count(), 257);
        assert!(text.starts_with("1 7 o\n") && text.ends_with("256 7 o\ntaken 0\n"));
    }
}
