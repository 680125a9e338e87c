//! Why permissions and workflows were refused with 19, monitors with 15 for what they hold of them, and
//! files with 14 for their pairs (02, E4), and monitors with 15 for their letter (02, E6). Each reason is
//! one that alone decides.

use reference::casefile::Case;
use reference::raw::RawInstance;
use reference::secure::{Secure, Transition};

use crate::report::Seen;

/// Permissions and a workflow as an opening is given them.
struct Bytes<'a> {
    roles: usize,
    permissions: &'a [u8],
    workflow: &'a [u8],
}

/// A reason for 19: its name, and whether it is the only one.
type Reason = (&'static str, fn(&Bytes) -> bool);

/// All reasons; each must occur.
const REASONS: [Reason; 19] = [
    ("permissions alone", |bytes| bytes.workflow.is_empty() && bytes.has_rows()),
    ("workflow alone", |bytes| bytes.permissions.is_empty() && bytes.has_plan()),
    ("permissions a byte short", |bytes| bytes.rows_are_off(-1)),
    ("permissions a byte long", |bytes| bytes.rows_are_off(1)),
    ("permissions a row short", |bytes| bytes.rows_are_off(-8)),
    ("permissions a row long", |bytes| bytes.rows_are_off(8)),
    ("workflow below four bytes", |bytes| {
        bytes.has_rows() && (1..4).contains(&bytes.workflow.len())
    }),
    ("workflow a byte short", |bytes| bytes.plan_is_off(-1)),
    ("workflow a byte long", |bytes| bytes.plan_is_off(1)),
    ("workflow a transition short", |bytes| bytes.plan_is_off(-3)),
    ("workflow a transition long", |bytes| bytes.plan_is_off(3)),
    ("no state", |bytes| bytes.has_states(0) && bytes.workflow.len() == 4),
    ("17 states", |bytes| bytes.has_states(17)),
    ("65 transitions", |bytes| {
        bytes.has_rows() && bytes.transitions().is_some_and(|all| all.len() == 65)
    }),
    ("undeclared final state", |bytes| bytes.mended(|plan| plan[2..4].fill(0))),
    ("undeclared state", |bytes| bytes.mended_once(|arrow, _| arrow[0] = 0, 0)),
    ("undeclared next state", |bytes| bytes.mended_once(|arrow, _| arrow[2] = 0, 2)),
    ("action 64 or above", |bytes| bytes.mended_once(|arrow, free| arrow[1] = free, 1)),
    ("state and action twice", |bytes| bytes.has_twins()),
];

/// The two ways to have the same state and action twice.
const TWINS: [&str; 2] = ["twice, the same next state", "twice, another next state"];

impl Bytes<'_> {
    fn is_refused(&self) -> bool {
        Secure::read(self.roles, self.permissions, self.workflow).is_err()
    }

    fn has_rows(&self) -> bool {
        self.permissions.len() == 8 * self.roles
    }

    /// Whether the workflow would be accepted with permissions of the right length.
    fn has_plan(&self) -> bool {
        let rows = vec![0; 8 * self.roles];
        !Bytes { permissions: &rows, ..*self }.is_refused() && !self.workflow.is_empty()
    }

    /// Whether the permissions alone are wrong, by so many bytes.
    fn rows_are_off(&self, by: isize) -> bool {
        self.permissions.len() as isize == 8 * self.roles as isize + by
            && !self.permissions.is_empty()
            && self.has_plan()
    }

    /// The transitions, if there are as many as are counted.
    fn transitions(&self) -> Option<Vec<[u8; 3]>> {
        let [_, count, _, _, rest @ ..] = self.workflow else {
            return None;
        };
        let all: Vec<[u8; 3]> =
            rest.chunks_exact(3).map(|arrow| [arrow[0], arrow[1], arrow[2]]).collect();
        (rest.len() == 3 * usize::from(*count)).then_some(all)
    }

    /// Whether the workflow is so many bytes longer than its count says.
    fn plan_is_off(&self, by: isize) -> bool {
        let [_, count, _, _, rest @ ..] = self.workflow else {
            return false;
        };
        self.has_rows() && rest.len() as isize == 3 * isize::from(*count) + by
    }

    /// Whether the length is right and there are so many states.
    fn has_states(&self, states: u8) -> bool {
        self.has_rows() && self.transitions().is_some() && self.workflow[0] == states
    }

    /// Whether both are accepted once the workflow is altered.
    fn mended(&self, alter: impl Fn(&mut [u8])) -> bool {
        let mut workflow = self.workflow.to_vec();
        if self.transitions().is_none() {
            return false;
        }
        alter(&mut workflow);
        !Bytes { workflow: &workflow, ..*self }.is_refused()
    }

    /// Whether both are accepted once one byte of one transition is another one.
    fn mended_once(&self, alter: fn(&mut [u8], u8), byte: usize) -> bool {
        let arrows = 0..self.transitions().map_or(0, |all| all.len());
        let bad = |arrow: &usize| {
            let value = self.workflow[4 + 3 * arrow + byte];
            if byte == 1 {
                value > 63
            } else {
                value >= self.workflow[0]
            }
        };
        let mends = |arrow: usize, free: u8| {
            self.mended(|plan| alter(&mut plan[4 + 3 * arrow..7 + 3 * arrow], free))
        };
        arrows.filter(bad).any(|arrow| (0..64).any(|free| mends(arrow, free)))
    }

    /// Whether both are accepted without one transition that has the state and action of another.
    fn has_twins(&self) -> bool {
        self.twins().is_some()
    }

    /// Whether those two have the same next state too.
    fn twins(&self) -> Option<bool> {
        let all = self.transitions()?;
        let pair = |arrow: &[u8; 3]| [arrow[0], arrow[1]];
        let (place, twin) = all.iter().enumerate().find_map(|(place, arrow)| {
            let twin = all[..place].iter().find(|other| pair(other) == pair(arrow))?;
            Some((place, twin))
        })?;
        let mut fewer = all.clone();
        fewer.remove(place);
        let count = fewer.len() as u8;
        let plan = [&[self.workflow[0], count], &self.workflow[2..4], &fewer.concat()].concat();
        let alone = !Bytes { workflow: &plan, ..*self }.is_refused();
        alone.then(|| twin[2] == all[place][2])
    }
}

/// The reasons for 19 that occurred.
#[derive(Clone, Debug)]
pub struct Openings {
    seen: Seen,
}

impl Openings {
    /// None yet; where all are wanted, each must occur.
    pub fn new(name: &str, all_wanted: bool) -> Openings {
        let names = REASONS.iter().map(|(name, _)| *name).chain(TWINS);
        Openings { seen: Seen::kinds(&format!("19 in {name}"), names.filter(|_| all_wanted)) }
    }

    /// Counts an opening that was refused with 19.
    pub fn count(&mut self, case: &Case) {
        let (permissions, workflow) = case.given();
        let bytes = Bytes { roles: case.roles.into(), permissions, workflow };
        for (name, _) in REASONS.iter().filter(|(_, holds)| holds(&bytes)) {
            self.seen.count_kind(name);
        }
        if let Some(same_next) = bytes.twins() {
            self.seen.count_kind(TWINS[usize::from(!same_next)]);
        }
    }

    /// What occurred.
    pub fn seen(self) -> Seen {
        self.seen
    }
}

/// A reason for 15: its name, whether an instance may have it, and what takes it away.
type Fault = (&'static str, fn(&RawInstance) -> bool, fn(&mut RawInstance));

/// Those of permissions and workflow; each must occur, and be the only one.
const FAULTS: [Fault; 16] = [
    ("state not declared", |raw| raw.states != 0, |raw| raw.state = 0),
    ("state above 255", |raw| raw.states != 0 && raw.state > 255, |raw| raw.state = 0),
    (
        "row past the roles",
        |raw| raw.states != 0,
        |raw| {
            raw.permissions.iter_mut().skip(raw.roles).for_each(|row| *row = 0);
        },
    ),
    (
        "transition past their number",
        |raw| raw.states != 0,
        |raw| {
            raw.transitions.iter_mut().skip(raw.arrows.into()).for_each(clear);
        },
    ),
    ("17 states or more", |raw| raw.states > 16, |raw| raw.states = 16),
    ("65 transitions or more", |raw| raw.states != 0 && raw.arrows > 64, |raw| raw.arrows = 3),
    ("final state not declared", |raw| raw.states != 0, |raw| raw.final_states = 0),
    (
        "state of a transition not declared",
        |raw| raw.states != 0,
        |raw| {
            let states = raw.states;
            used(raw).filter(|arrow| arrow.state >= states).for_each(|arrow| arrow.state = 0);
        },
    ),
    (
        "next state not declared",
        |raw| raw.states != 0,
        |raw| {
            let states = raw.states;
            used(raw).filter(|arrow| arrow.next >= states).for_each(|arrow| arrow.next = 0);
        },
    ),
    (
        "action above 63",
        |raw| raw.states != 0,
        |raw| {
            used(raw).filter(|arrow| arrow.action > 63).for_each(|arrow| arrow.action = 62);
        },
    ),
    (
        "state and action twice",
        |raw| raw.states != 0,
        |raw| {
            let mut free = 10;
            used(raw).for_each(|arrow| {
                free += 1;
                arrow.action = free % 64;
            });
        },
    ),
    ("permissions, no workflow", |raw| raw.states == 0, |raw| raw.permissions = [0; 16]),
    ("state, no workflow", |raw| raw.states == 0, |raw| raw.state = 0),
    ("final states, no workflow", |raw| raw.states == 0, |raw| raw.final_states = 0),
    (
        "transitions, no workflow",
        |raw| raw.states == 0,
        |raw| {
            raw.transitions.iter_mut().for_each(clear);
        },
    ),
    ("number of transitions, no workflow", |raw| raw.states == 0, |raw| raw.arrows = 0),
];

/// Those of the letter of the status; each must occur, and be the only one. Where nothing is taken, the
/// letter of an open instance has to be `o`.
const LETTERS: [Fault; 17] = [
    ("letter 0", |raw| raw.letter == 0, set_letter),
    ("letter 1", |raw| raw.letter == 1, set_letter),
    ("letter 255", |raw| raw.letter == 255, set_letter),
    ("letter O", |raw| raw.letter == b'O', set_letter),
    ("letter C", |raw| raw.letter == b'C', set_letter),
    ("letter D", |raw| raw.letter == b'D', set_letter),
    ("another small letter", |raw| is_other_letter(raw.letter), set_letter),
    (
        "none of the letters, closed",
        |raw| raw.closed != 0 && is_other_letter(raw.letter),
        set_letter,
    ),
    ("d without the mark", |raw| is_open(raw, b'd') && raw.count > 0, set_letter),
    ("d without the mark, no action", |raw| is_open(raw, b'd') && raw.count == 0, set_letter),
    ("c without an action", |raw| is_open(raw, b'c') && raw.count == 0, set_letter),
    ("mark 1 with o", |raw| (raw.closed, raw.letter) == (1, b'o'), set_letter),
    ("mark 1 with c", |raw| (raw.closed, raw.letter) == (1, b'c'), set_letter),
    ("another mark with o", |raw| raw.closed > 1 && raw.letter == b'o', set_letter),
    ("another mark with c", |raw| raw.closed > 1 && raw.letter == b'c', set_letter),
    ("the mark with o, no action", |raw| has_mark_alone(raw, b'o'), set_letter),
    ("the mark with c, no action", |raw| has_mark_alone(raw, b'c'), set_letter),
];

/// Gives an instance a letter that its mark allows, whatever is taken.
fn set_letter(raw: &mut RawInstance) {
    raw.letter = if raw.closed == 0 { b'o' } else { b'd' };
}

fn is_other_letter(letter: u8) -> bool {
    letter.is_ascii_lowercase() && !b"ocd".contains(&letter)
}

/// Whether an instance without the mark has this letter.
fn is_open(raw: &RawInstance, letter: u8) -> bool {
    raw.closed == 0 && raw.letter == letter
}

/// Whether an instance with the mark and with no action has this letter.
fn has_mark_alone(raw: &RawInstance, letter: u8) -> bool {
    raw.closed != 0 && raw.count == 0 && raw.letter == letter
}

/// The transitions in use.
fn used(raw: &mut RawInstance) -> impl Iterator<Item = &mut Transition> {
    let count = usize::from(raw.arrows).min(raw.transitions.len());
    raw.transitions[..count].iter_mut()
}

/// Makes a transition an unused one.
fn clear(arrow: &mut Transition) {
    *arrow = Transition::default();
}

/// The reasons for 15 that occurred.
#[derive(Clone, Debug)]
pub struct Instances {
    seen: Seen,
}

impl Instances {
    /// None yet; each must occur.
    pub fn new(name: &str) -> Instances {
        let wanted = FAULTS.iter().chain(&LETTERS).map(|(name, _, _)| *name);
        Instances { seen: Seen::kinds(&format!("15 in {name}"), wanted) }
    }

    /// Counts an instance, if it is malformed for one of these reasons.
    pub fn count(&mut self, raw: &RawInstance) {
        if raw.monitor().is_ok() {
            return;
        }
        for (name, applies, mend) in FAULTS.iter().chain(&LETTERS) {
            let mut mended = *raw;
            mend(&mut mended);
            if applies(raw) && mended.monitor().is_ok() {
                self.seen.count_kind(name);
            }
        }
    }

    /// What occurred.
    pub fn seen(self) -> Seen {
        self.seen
    }
}

/// A kind of file: its name, the number that it is refused with, and whether its bytes are of it.
type Pairs = (&'static str, u8, fn(&[u8]) -> bool);

/// All of them; each must occur.
const PAIRS: [Pairs; 8] = [
    ("first offset 16", 14, |bytes| number(bytes, 0) == 16),
    ("first offset 24", 14, |bytes| number(bytes, 0) == 24),
    ("another first offset", 14, |bytes| ![12, 16, 20, 24].contains(&number(bytes, 0))),
    ("first offset 20 in a short file", 14, |bytes| is_five(bytes) && bytes.len() < 20),
    ("permissions not behind the events", 14, |bytes| has_gap(bytes, 3)),
    ("workflow not behind the permissions", 14, |bytes| has_gap(bytes, 4)),
    ("workflow does not end the file", 14, |bytes| {
        is_whole(bytes) && (1..5).all(|pair| !has_gap(bytes, pair)) && end(bytes, 4) != bytes.len()
    }),
    ("odd length of a new part", 19, |bytes| {
        is_whole(bytes) && (length(bytes, 3) % 2 == 1 || length(bytes, 4) % 2 == 1)
    }),
];

/// The number of 16 bits at this place; 0 where the file has ended.
fn number(bytes: &[u8], place: usize) -> usize {
    bytes.get(place..place + 2).map_or(0, |both| usize::from(both[0]) + 256 * usize::from(both[1]))
}

/// The length of a part.
fn length(bytes: &[u8], pair: usize) -> usize {
    number(bytes, 4 * pair + 2)
}

/// Where a part ends.
fn end(bytes: &[u8], pair: usize) -> usize {
    number(bytes, 4 * pair) + length(bytes, pair)
}

fn is_five(bytes: &[u8]) -> bool {
    bytes.len() >= 12 && number(bytes, 0) == 20
}

fn is_whole(bytes: &[u8]) -> bool {
    is_five(bytes) && bytes.len() >= 20
}

/// Whether a part of five does not begin where the last one ended.
fn has_gap(bytes: &[u8], pair: usize) -> bool {
    is_whole(bytes) && number(bytes, 4 * pair) != end(bytes, pair - 1)
}

/// The kinds of files that occurred.
#[derive(Clone, Debug)]
pub struct Files {
    seen: Seen,
}

impl Files {
    /// None yet; where all are wanted, each must occur.
    pub fn new(name: &str, all_wanted: bool) -> Files {
        let wanted = PAIRS.iter().filter(|_| all_wanted).map(|(name, _, _)| *name);
        Files { seen: Seen::kinds(&format!("pairs of {name}"), wanted) }
    }

    /// Counts a file that was refused with this number.
    pub fn count(&mut self, bytes: &[u8], number: u8) {
        for (name, refusal, holds) in PAIRS {
            if refusal == number && holds(bytes) {
                self.seen.count_kind(name);
            }
        }
    }

    /// What occurred.
    pub fn seen(self) -> Seen {
        self.seen
    }
}

#[cfg(test)]
mod tests {
    use super::*;
    use crate::report::Report;
    use reference::casefile::judge;
    use reference::generate::{edges, instances, Random};

    /// Asserts that everything wanted was counted.
    fn is_whole(seen: Seen) {
        let report = Report { groups: vec![], seen: vec![seen] };
        assert!(report.passed(), "{report}");
    }

    #[test]
    fn edges_have_every_reason() {
        let mut openings = Openings::new("edges", true);
        for (name, case) in edges::secure::openings() {
            if name.starts_with("19, ") {
                openings.count(&case);
            }
        }
        is_whole(openings.seen());
    }

    #[test]
    fn malformed_instances_have_every_reason() {
        let mut malformed = Instances::new("edges");
        let mut random = Random::new(4);
        for _ in 0..3 {
            instances::malformed(&mut random).iter().for_each(|(_, raw)| malformed.count(raw));
        }
        is_whole(malformed.seen());
    }

    #[test]
    fn files_are_of_every_kind() {
        let mut files = Files::new("edges", true);
        for (_, bytes) in edges::secure::files() {
            for number in [14, 19] {
                if judge(&bytes) == format!("refused {number}\n") {
                    files.count(&bytes, number);
                }
            }
        }
        is_whole(files.seen());
    }
}
