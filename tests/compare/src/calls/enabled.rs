//! Who may act (02, E1 and E4): the number, the mask and the workspace for an action's number, on raw
//! instances, well formed and not, and along whole runs beside masks that are kept.

use std::collections::BTreeSet;
use std::hint::black_box;

use oskhrein::raw::{Calls, Monitor};
use reference::casefile::{read_case, Case};
use reference::generate::calls::{enabled_edges, enabled_input, EnabledInput};
use reference::generate::instances::flipped;
use reference::generate::{cases, edges, Random};
use reference::monitor::{Monitor as Grown, Taken, MOST_ACTIONS};
use reference::raw::RawInstance;
use reference::workspace::WORDS;

use super::left::Left;
use super::{byte, opened, Call, RUN_EVERY};
use crate::leavers::Leavers;
use crate::lent::Lent;
use crate::library::laid_out;
use crate::refusals::Instances;
use crate::report::Seen;
use crate::secure::Masks;

/// What the lent mask holds before a call, and what stands on both sides of it.
const MARK: u16 = 0xa5a5;

/// A kind of accepted input: its name, and whether an instance with its mask is of it.
type Kind = (&'static str, fn(&RawInstance, u16) -> bool);

/// All kinds; each must occur.
const KINDS: [Kind; 10] = [
    ("closed", |raw, mask| raw.closed != 0 && mask == 0),
    ("full", |raw, mask| raw.closed == 0 && raw.count == MOST_ACTIONS && mask == 0),
    ("eleven actions", |raw, _| raw.count == MOST_ACTIONS - 1),
    ("nobody", |raw, mask| may_grow(raw) && mask == 0),
    ("everybody", |raw, mask| mask == everybody(raw)),
    ("some and the last", |raw, mask| mask != everybody(raw) && mask >> (raw.users - 1) & 1 == 1),
    ("some but not the last", |raw, mask| mask != 0 && mask >> (raw.users - 1) & 1 == 0),
    ("one user", |raw, _| may_grow(raw) && raw.users == 1),
    ("sixteen alike", |raw, _| may_grow(raw) && raw.users == 16 && rows(raw) <= 4),
    ("sixteen different", |raw, _| may_grow(raw) && raw.users == 16 && rows(raw) == 16),
];

/// Whether an instance is neither closed nor full.
fn may_grow(raw: &RawInstance) -> bool {
    raw.closed == 0 && raw.count < MOST_ACTIONS
}

/// The mask of all users.
fn everybody(raw: &RawInstance) -> u16 {
    u16::MAX >> (16 - raw.users)
}

/// How many different rows of roles the users hold.
fn rows(raw: &RawInstance) -> usize {
    raw.user_roles[..raw.users].iter().collect::<BTreeSet<_>>().len()
}

/// The call, with the library that is asked.
struct Enabled<'a> {
    library: &'a Calls,
    call: Call,
    kinds: Seen,
    leavers: Leavers,
    secure: Masks,
    malformed: Instances,
}

/// Compares on all edges, on so many random instances, on as many with a bit flipped, and along
/// runs.
pub fn compare(library: &Calls, seed: u64, count: usize) -> (Call, [Seen; 4]) {
    let call = Call::new("enabled", &[0, 12, 15]);
    let kinds = Seen::kinds("enabled", KINDS.map(|(name, _)| name));
    let (leavers, secure) = (Leavers::of_masks("enabled"), Masks::new("enabled"));
    let malformed = Instances::new("enabled");
    let mut enabled = Enabled { library, call, kinds, leavers, secure, malformed };
    let mut random = Random::new(seed);
    for (name, input) in enabled_edges(&mut random) {
        enabled.check(&name, &input);
    }
    for (name, case) in edges::runs() {
        enabled.run(&name, &case);
    }
    for turn in 0..count {
        if enabled.call.group.is_enough() {
            break;
        }
        let input = enabled_input(&mut random);
        enabled.check(&format!("random {turn} of seed {seed}"), &input);
        let flipped = EnabledInput { instance: flipped(&mut random, input.instance), ..input };
        enabled.check(&format!("flipped {turn} of seed {seed}"), &flipped);
        let (_, bytes) = cases::random_file(&mut random, turn);
        if let (0, Ok(case)) = (turn % RUN_EVERY, read_case(&bytes)) {
            enabled.run(&format!("run {turn} of seed {seed}"), &case);
        }
    }
    let Enabled { call, kinds, leavers, secure, malformed, .. } = enabled;
    (call, [kinds, leavers.seen(), secure.seen(), malformed.seen()])
}

impl Enabled<'_> {
    /// Who may act on an instance.
    fn check(&mut self, label: &str, input: &EnabledInput) {
        let raw = &input.instance;
        self.malformed.count(raw);
        let mut workspace = Lent::new(input.workspace);
        let answered = raw.enabled(input.action, workspace.words());
        if let Ok(mask) = answered {
            let of_it = KINDS.iter().filter(|(_, holds)| holds(raw, mask));
            of_it.for_each(|(name, _)| self.kinds.count_kind(name));
        }
        let lent = (&workspace, input.workspace);
        self.ask(label, &laid_out(raw), input.action, answered, lent);
    }

    /// Asks the product; the mask that it leaves. A refusal must leave the lent one alone.
    fn ask(
        &mut self,
        label: &str,
        before: &Monitor,
        action: u8,
        answered: Result<u16, u32>,
        (workspace, length): (&Lent, usize),
    ) -> u16 {
        let (answer, mask) = (byte(answered.map(|_| 0)), answered.unwrap_or(MARK));
        let expected = Left { answer, monitor: before, workspace };
        let (mut monitor, mut workspace, mut users) = (*before, Lent::new(length), [MARK; 3]);
        let answer = self.library.enabled(&monitor, action, workspace.words(), &mut users[1]);
        // Both are looked at anew, so that a write to the monitor or beside the mask would be seen.
        black_box((&mut monitor, &mut users));
        let got = Left { answer, monitor: &monitor, workspace: &workspace };
        let same = expected.same(&got) && users == [MARK, mask, MARK];
        self.call.check(answer, same, || {
            let input = format!("action {action}, workspace of {length}, on (hex) {before:x?}");
            let masks = format!("expected mask {mask:04x}, got {users:04x?}");
            format!("{label}\n  {input}\n{}\n  {masks}", expected.against(&got))
        });
        users[1]
    }

    /// A whole run from the opening as a desk program follows it, which keeps a mask for each of some
    /// actions beside the monitor and asks anew after accepted events only: what is kept must be what
    /// a call answers.
    fn run(&mut self, label: &str, case: &Case) {
        let Ok(mut grown) = case.open::<Taken>() else {
            return;
        };
        self.leavers.count_masks(case);
        let mut monitor = opened(self.library, case);
        let numbers = numbers(case);
        let mut kept = self.follow(label, &monitor, &grown, &numbers);
        for (place, word) in case.events.iter().enumerate() {
            let label = format!("{label}, event {place} of (hex) {case:x?}");
            let code = self.library.event(&mut monitor, *word, Lent::new(WORDS).words());
            grown.step(*word);
            let masks = self.follow(&label, &monitor, &grown, &numbers);
            if code == 0 {
                kept.clone_from(&masks);
            }
            self.call.group.check(kept == masks, || {
                format!("{label}\n  kept masks {kept:04x?}, but {masks:04x?} after {code}")
            });
        }
    }

    /// Asks the product along a run for each of some actions, beside an instance of the reference that
    /// keeps no bits but the roles held at the time.
    fn follow(
        &mut self,
        label: &str,
        monitor: &Monitor,
        grown: &Grown<Taken>,
        numbers: &[u8],
    ) -> Vec<u16> {
        let mut masks = Vec::new();
        for action in numbers {
            self.secure.count(grown, *action);
            let mut workspace = Lent::new(WORDS);
            let answered = grown.enabled(*action, workspace.words());
            masks.push(self.ask(label, monitor, *action, answered, (&workspace, WORDS)));
        }
        masks
    }
}

/// The actions to ask for along a run: the first ones of the workflow, and one above 63; without a
/// workflow, any one.
fn numbers(case: &Case) -> Vec<u8> {
    let (_, workflow) = case.given();
    let arrows = workflow.get(4..).unwrap_or_default().chunks_exact(3);
    let mut numbers: Vec<u8> = arrows.map(|arrow| arrow[1]).collect();
    numbers.sort_unstable();
    numbers.dedup();
    numbers.truncate(3);
    numbers.push(64 + case.events.len() as u8 % 192);
    numbers
}
