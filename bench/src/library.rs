//! The proved library by its exported calls: the one that is linked, and an earlier build of it that
//! is loaded, which may have other calls and lay monitors out in another way.

mod earlier;
mod layouts;

use std::ptr;

use oskhrein::raw::{self, Calls};
use oskhrein::Event;

use crate::cases::action;
use crate::tuned::{self, Monitor};
use earlier::{load, Others, WITH_ENABLED, WITH_PLACES, WITH_TEXTS, WITH_WORKFLOWS};
pub use layouts::Stored;
use layouts::{Layout, LAYOUTS};

/// A build of the library.
#[derive(Clone, Copy)]
pub struct Library {
    calls: Calls,
    others: Others,
    layout: Layout,
}

/// What a small case is opened with, and the events that close it: each of the counts is then another
/// one, so that no layout can be taken for another.
const COUNTS: (u8, u8) = (5, 4);
const POLICY: [u32; 3] = [9 << 24, 1 << 24, 1 << 24];
const ROWS: [u16; 5] = [1, 2, 4, 8, 1];
const EVENTS: [u32; 3] = [action(0), action(1), Event::Close.word()];

/// The small case by the hand-tuned program.
fn expected() -> Monitor {
    let mut monitor = Monitor::default();
    let mut workspace = vec![0; tuned::WORDS];
    let opened = monitor.open(COUNTS, &POLICY, &ROWS, (&[], &[]));
    let taken = EVENTS.map(|word| monitor.event(word, &mut workspace, tuned::rows::fill));
    assert!(opened.is_ok() && taken.iter().all(Result::is_ok), "the small case is accepted");
    monitor
}

impl Library {
    /// The one that is linked.
    pub fn linked() -> Result<Library, String> {
        if Calls::LINKED.layout() != raw::LAYOUT {
            return Err(format!("the linked library has not layout {}", raw::LAYOUT));
        }
        Library::new(Calls::LINKED, Others::default())
    }

    /// The one in a shared library.
    pub fn loaded(path: &str) -> Result<Library, String> {
        let (calls, others) = load(path)?;
        Library::new(calls, others)
    }

    /// The library with these calls. Its layout is the one in which it grows a monitor.
    fn new(calls: Calls, others: Others) -> Result<Library, String> {
        let of_layout = |layout| Library { calls, others, layout };
        let stored = of_layout(LAYOUTS[0]).grown();
        let mut all = LAYOUTS.into_iter().map(of_layout);
        let found = all.find(|library| library.monitor(&stored) == expected());
        found.ok_or("the library has monitors in a layout that is not known here".to_string())
    }

    /// The small case by this library. The layout plays no part.
    fn grown(&self) -> Stored {
        let mut stored = Stored::ZERO;
        let mut workspace = vec![0; tuned::WORDS];
        self.open(&mut stored, COUNTS, &POLICY, &ROWS, (&[], &[]), &mut 0);
        for word in EVENTS {
            self.event(&mut stored, word, &mut workspace);
        }
        stored
    }

    /// A monitor as this library has it.
    pub fn stored(&self, monitor: &Monitor) -> Stored {
        (self.layout.write)(monitor)
    }

    /// What this library made of one. A build whose monitors do not keep their status is asked for it.
    pub fn monitor(&self, stored: &Stored) -> Monitor {
        let mut monitor = (self.layout.read)(stored);
        if !self.keeps_status() {
            let told = self.status(&mut { *stored }, &mut vec![0; tuned::WORDS]);
            monitor.instance.status = if told.is_ascii_lowercase() { told } else { 0 };
        }
        monitor
    }

    /// Opens a monitor. A build from before permissions and workflows is not told of them.
    pub fn open(
        &self,
        stored: &mut Stored,
        (users, roles): (u8, u8),
        words: &[u32],
        rows: &[u16],
        (permissions, workflow): (&[u8], &[u8]),
        place: &mut u8,
    ) -> u8 {
        let Some(open) = self.others.open else {
            let monitor = raw_mut(stored);
            return self.calls.open(
                monitor,
                users,
                roles,
                words,
                rows,
                permissions,
                workflow,
                place,
            );
        };
        let (words, n_words) = (words.as_ptr(), words.len());
        let (rows, n_rows) = (rows.as_ptr(), rows.len());
        // SAFETY: each pointer is that of a reference or a slice, whose length follows it, and there is
        // room for an earlier build's monitor.
        unsafe { open(stored, users, roles, words, n_words, rows, n_rows, place) }
    }

    /// One event.
    pub fn event(&self, stored: &mut Stored, word: u32, workspace: &mut [u32]) -> u8 {
        self.calls.event(raw_mut(stored), word, workspace)
    }

    /// The status. Only a build whose monitors do not keep it takes a workspace.
    pub fn status(&self, stored: &mut Stored, workspace: &mut [u32]) -> u8 {
        let Some(status) = self.others.status else {
            return self.calls.status(raw_mut(stored));
        };
        // SAFETY: each pointer is that of a reference or a slice, whose length follows it.
        unsafe { status(stored, workspace.as_mut_ptr(), workspace.len()) }
    }

    /// Who may execute an action. A library that does not tell answers no number; one from before
    /// workflows does not look at the action.
    pub fn enabled(
        &self,
        stored: &mut Stored,
        action: u8,
        workspace: &mut [u32],
        users: &mut u16,
    ) -> u8 {
        let Some(enabled) = self.others.enabled else {
            return self.calls.enabled(raw_mut(stored), action, workspace, users);
        };
        // SAFETY: each pointer is that of a reference or a slice, whose length follows it.
        unsafe { enabled(stored, workspace.as_mut_ptr(), workspace.len(), users) }
    }

    /// Its version, as people write it.
    pub fn version(&self) -> String {
        let [patch, minor, major, _] = self.calls.version().to_le_bytes();
        format!("{major}.{minor}.{patch}")
    }

    /// Whether its monitors keep their status.
    pub fn keeps_status(&self) -> bool {
        self.layout.keeps_status
    }

    /// Whether it reads and writes texts.
    pub fn has_texts(&self) -> bool {
        self.calls.version() >= WITH_TEXTS
    }

    /// Whether it has permissions and workflows.
    pub fn has_workflows(&self) -> bool {
        self.calls.version() >= WITH_WORKFLOWS
    }

    /// Whether it tells who may act.
    pub fn tells_enabled(&self) -> bool {
        self.calls.version() >= WITH_ENABLED
    }

    /// Whether it tells the place of a policy's fault.
    pub fn tells_places(&self) -> bool {
        self.calls.version() >= WITH_PLACES
    }

    /// The calls that are lent no monitor.
    pub fn calls(&self) -> &Calls {
        &self.calls
    }
}

/// The bytes as the struct that the declarations have.
fn raw_mut(stored: &mut Stored) -> &mut raw::Monitor {
    // SAFETY: both are as long and as aligned, and every byte is one of a number or of padding.
    unsafe { &mut *ptr::from_mut(stored).cast() }
}

#[cfg(test)]
mod tests {
    use super::*;

    #[test]
    fn the_linked_library_has_a_known_layout() {
        assert!(Library::linked().is_ok_and(|library| library.keeps_status()));
    }
}
