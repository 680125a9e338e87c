//! Events and statuses (01: standings): on raw instances, well formed and not, and along whole runs. A
//! status is lent no workspace, and a close leaves the one that it is lent alone.

use std::hint::black_box;

use oskhrein::raw::{Calls, Monitor};
use reference::casefile::{read_case, Case};
use reference::event::is_of_close_kind;
use reference::generate::calls::{event_edges, event_input, EventInput};
use reference::generate::instances::flipped;
use reference::generate::{cases, edges, Random};
use reference::monitor::Taken;
use reference::workspace::WORDS;

use super::left::Left;
use super::{byte, opened, Call, RUN_EVERY};
use crate::leavers::Leavers;
use crate::lent::Lent;
use crate::library::laid_out;
use crate::refusals::Instances;
use crate::report::{answer_text, Seen};
use crate::secure;
use crate::statuses;

/// Both calls, with the library that is asked.
struct Events<'a> {
    library: &'a Calls,
    event: Call,
    status: Call,
    leavers: Leavers,
    secure: secure::Events,
    steps: statuses::Steps,
    calls: statuses::Calls,
    malformed: Instances,
}

/// Compares on all edges, on so many random instances, on as many with a bit flipped, and along
/// runs.
pub fn compare(library: &Calls, seed: u64, count: usize) -> ([Call; 2], Vec<Seen>) {
    let mut events = Events {
        library,
        event: Call::new("event", &[0, 7, 8, 9, 10, 11, 12, 15, 16, 17]),
        status: Call::new("status", &[15, b'c', b'd', b'o']),
        leavers: Leavers::of_events("event", true),
        secure: secure::Events::new("event", true),
        steps: statuses::Steps::new("event", true),
        calls: statuses::Calls::new(),
        malformed: Instances::new("event"),
    };
    let mut random = Random::new(seed);
    for (name, input) in event_edges(&mut random) {
        events.check(&name, &input);
    }
    for (name, case) in edges::runs() {
        events.run(&name, &case);
    }
    for turn in 0..count {
        if events.event.group.is_enough() || events.status.group.is_enough() {
            break;
        }
        let input = event_input(&mut random);
        events.check(&format!("random {turn} of seed {seed}"), &input);
        let flipped = EventInput { instance: flipped(&mut random, input.instance), ..input };
        events.check(&format!("flipped {turn} of seed {seed}"), &flipped);
        let (_, bytes) = cases::random_file(&mut random, turn);
        if let (0, Ok(case)) = (turn % RUN_EVERY, read_case(&bytes)) {
            events.run(&format!("run {turn} of seed {seed}"), &case);
        }
    }
    let Events { event, status, leavers, secure, steps, calls, malformed, .. } = events;
    let mut kinds = vec![leavers.seen(), secure.seen(), steps.seen()];
    kinds.extend(calls.seen());
    kinds.push(malformed.seen());
    ([event, status], kinds)
}

/// The length of the workspace for the event at this place of a run: any one where it plays no part.
fn length_for(word: u32, place: usize) -> usize {
    if is_of_close_kind(word) {
        [0, WORDS, WORDS - 1, WORDS + 8][place % 4]
    } else {
        WORDS
    }
}

impl Events<'_> {
    /// One event on an instance, and its status.
    fn check(&mut self, label: &str, input: &EventInput) {
        let EventInput { instance, word, workspace: length } = input;
        self.malformed.count(instance);
        let mut raw = *instance;
        let mut workspace = Lent::new(*length);
        let answer = raw.event(*word, workspace.words()) as u8;
        self.calls.count_event(instance, *word, *length, answer);
        let after = laid_out(&raw);
        let expected = Left { answer, monitor: &after, workspace: &workspace };
        let before = laid_out(instance);
        self.event(label, before, *word, *length, &expected);
        let answer = byte(instance.status().map(|letter| letter as u8));
        self.calls.count_status(instance, answer);
        self.status(label, &before, answer);
    }

    /// Asks the product for an event; the monitor that it leaves.
    fn event(
        &mut self,
        label: &str,
        before: Monitor,
        word: u32,
        length: usize,
        expected: &Left,
    ) -> Monitor {
        let (mut monitor, mut workspace) = (before, Lent::new(length));
        let answer = self.library.event(&mut monitor, word, workspace.words());
        let got = Left { answer, monitor: &monitor, workspace: &workspace };
        self.event.check(answer, expected.same(&got), || {
            let input = format!("event {word:08x}, workspace of {length}, on (hex) {before:x?}");
            format!("{label}\n  {input}\n{}", expected.against(&got))
        });
        monitor
    }

    /// Asks the product for a status, which must be this and leave the monitor as it was.
    fn status(&mut self, label: &str, before: &Monitor, expected: u8) {
        let mut monitor = *before;
        let answer = self.library.status(&monitor);
        // The call only reads the monitor; it is looked at anew, so that a write would be seen.
        black_box(&mut monitor);
        self.status.check(answer, answer == expected && monitor == *before, || {
            let (expected, answer) = (answer_text(expected), answer_text(answer));
            let left = if monitor == *before { "" } else { ", and another monitor" };
            format!("{label}\n  of (hex) {before:x?}\n  expected {expected}, got {answer}{left}")
        });
    }

    /// A whole run from the opening, beside an instance of the reference that keeps no bits but the
    /// roles held at the time.
    fn run(&mut self, label: &str, case: &Case) {
        let Ok(mut grown) = case.open::<Taken>() else {
            return;
        };
        self.leavers.count_events(case);
        self.secure.count(case);
        self.steps.count(case);
        let mut monitor = opened(self.library, case);
        self.status(&format!("{label}, opened"), &monitor, grown.status() as u8);
        for (place, word) in case.events.iter().enumerate() {
            let label = format!("{label}, event {place} of (hex) {case:x?}");
            let length = length_for(*word, place);
            let mut workspace = Lent::new(length);
            let answer = grown.event(*word, workspace.words()) as u8;
            let after = laid_out(&grown.raw());
            let expected = Left { answer, monitor: &after, workspace: &workspace };
            monitor = self.event(&label, monitor, *word, length, &expected);
            self.status(&label, &monitor, grown.status() as u8);
        }
    }
}
