//! The exported calls as they are: on a monitor where the caller keeps it, in C's layout, with one
//! byte an answer. Most programs want the types at the crate's root instead.
//!
//! All that is unsafe in this crate is here. The library asks of its caller (`oskhrein.h`):
//!
//! 1. Each pointer is aligned, not null and valid for its length. Here each is that of a reference
//!    or a slice, and the slice's own length follows it.
//! 2. What one call is lent does not overlap, and nobody else writes it meanwhile. Here all that a
//!    call writes is behind a `&mut`, and all that it only reads behind a `&`.
//! 3. A monitor is initialised. The type sees to that; any bytes will do.
//!
//! A call neither keeps a pointer nor unwinds.
//!
//! A call that reads a policy is lent a byte for the place of the policy's fault. It writes there
//! with 1 to 4; any other answer leaves the byte as it was.
//! [`Refusal::of_number`](crate::Refusal::of_number) takes both.

mod layout;

use std::ffi::c_void;
use std::mem::transmute;
use std::ptr::NonNull;

pub use layout::{Action, Configuration, Instance, Monitor, Transition, Workflow};
pub use layout::{ACTION_NUMBERS, LAYOUT, MAX_ACTIONS, MAX_ROLES, MAX_STATES, MAX_TRANSITIONS};
pub use layout::{MAX_USERS, MAX_WORDS};

/// How many words a workspace has at least.
pub const WORKSPACE_WORDS: usize = 8192;

/// The most bytes that a policy's text has: an output of so many is never too short for one.
pub const LONGEST_TEXT: usize = 767;

/// The most bytes that are read as a text. A longer one is refused, whatever it says.
pub const MAX_TEXT: usize = 1024;

/// Declares the exported functions, and with them the table of pointers to them.
macro_rules! exported {
    ($($field:ident: $name:ident($($parameter:ident: $type:ty),* $(,)?) -> $answer:ty;)*) => {
        extern "C" {
            $(fn $name($($parameter: $type),*) -> $answer;)*
        }

        /// The exported calls of one library. Numbers and letters are those of the C header.
        #[derive(Clone, Copy, Debug)]
        pub struct Calls {
            $($field: unsafe extern "C" fn($($type),*) -> $answer,)*
        }

        impl Calls {
            /// Those of the static library that this crate is linked with.
            pub const LINKED: Calls = Calls { $($field: $name,)* };

            /// Those that are found by name in a library that is loaded at run time.
            ///
            /// # Errors
            /// The first name under which none is found.
            ///
            /// # Safety
            /// What is found is the function of that name of a library as this crate is linked
            /// with, and stays loaded.
            pub unsafe fn loaded(
                find: impl Fn(&'static str) -> Option<NonNull<c_void>>,
            ) -> Result<Calls, &'static str> {
                $(
                    let found = find(stringify!($name)).ok_or(stringify!($name))?;
                    // SAFETY: the caller vouches for the type of what it finds.
                    let $field = unsafe {
                        transmute::<NonNull<c_void>, unsafe extern "C" fn($($type),*) -> $answer>(found)
                    };
                )*
                Ok(Calls { $($field),* })
            }
        }
    };
}

exported! {
    open: oskhrein_open(
        monitor: *mut Monitor,
        users: u8,
        roles: u8,
        words: *const u32,
        n_words: usize,
        rows: *const u16,
        n_rows: usize,
        permissions: *const u8,
        n_permissions: usize,
        workflow: *const u8,
        n_workflow: usize,
        place: *mut u8,
    ) -> u8;
    event: oskhrein_event(
        monitor: *mut Monitor,
        word: u32,
        workspace: *mut u32,
        n_workspace: usize,
    ) -> u8;
    status: oskhrein_status(monitor: *const Monitor) -> u8;
    enabled: oskhrein_enabled(
        monitor: *const Monitor,
        action: u8,
        workspace: *mut u32,
        n_workspace: usize,
        users: *mut u16,
    ) -> u8;
    satisfies: oskhrein_satisfies(
        users: u8,
        roles: u8,
        words: *const u32,
        n_words: usize,
        rows: *const u16,
        n_rows: usize,
        counts: *const [u8; MAX_USERS],
        workspace: *mut u32,
        n_workspace: usize,
        place: *mut u8,
    ) -> u8;
    normal_form: oskhrein_normal_form(
        users: u8,
        roles: u8,
        words: *const u32,
        n_words: usize,
        out: *mut u32,
        n_out: usize,
        place: *mut u8,
    ) -> u8;
    read_text: oskhrein_read_text(
        users: u8,
        roles: u8,
        text: *const u8,
        n_text: usize,
        out: *mut u32,
        n_out: usize,
        written: *mut usize,
        place: *mut u8,
    ) -> u8;
    write_text: oskhrein_write_text(
        users: u8,
        roles: u8,
        words: *const u32,
        n_words: usize,
        out: *mut u8,
        n_out: usize,
        written: *mut usize,
        place: *mut u8,
    ) -> u8;
    version: oskhrein_version() -> u32;
    layout: oskhrein_layout() -> u32;
}

impl Calls {
    /// Opens a monitor, with permissions and a workflow where they are not empty. A refusal leaves the
    /// blank one.
    #[allow(clippy::too_many_arguments)] // those of the exported function
    pub fn open(
        &self,
        monitor: &mut Monitor,
        users: u8,
        roles: u8,
        words: &[u32],
        rows: &[u16],
        permissions: &[u8],
        workflow: &[u8],
        place: &mut u8,
    ) -> u8 {
        let (words, n_words) = (words.as_ptr(), words.len());
        let (rows, n_rows) = (rows.as_ptr(), rows.len());
        let (permits, n_permits) = (permissions.as_ptr(), permissions.len());
        let (flow, n_flow) = (workflow.as_ptr(), workflow.len());
        // SAFETY: 1 to 3 by the parameters' types.
        unsafe {
            (self.open)(
                monitor, users, roles, words, n_words, rows, n_rows, permits, n_permits, flow,
                n_flow, place,
            )
        }
    }

    /// One event. For a word of kind 4, a close's, the workspace may have any length.
    pub fn event(&self, monitor: &mut Monitor, word: u32, workspace: &mut [u32]) -> u8 {
        let (workspace, n_workspace) = (workspace.as_mut_ptr(), workspace.len());
        // SAFETY: 1 to 3 by the parameters' types.
        unsafe { (self.event)(monitor, word, workspace, n_workspace) }
    }

    /// The status, which is the letter that a well-formed monitor keeps.
    pub fn status(&self, monitor: &Monitor) -> u8 {
        // SAFETY: 1 to 3 by the parameter's type.
        unsafe { (self.status)(monitor) }
    }

    /// The users whose action with this number would be accepted, bit u for user u. A refusal leaves
    /// them as they were.
    pub fn enabled(
        &self,
        monitor: &Monitor,
        action: u8,
        workspace: &mut [u32],
        users: &mut u16,
    ) -> u8 {
        let (workspace, n_workspace) = (workspace.as_mut_ptr(), workspace.len());
        // SAFETY: 1 to 3 by the parameters' types.
        unsafe { (self.enabled)(monitor, action, workspace, n_workspace, users) }
    }

    /// The multiset test.
    #[allow(clippy::too_many_arguments)] // those of the exported function
    pub fn satisfies(
        &self,
        users: u8,
        roles: u8,
        words: &[u32],
        rows: &[u16],
        counts: &[u8; MAX_USERS],
        workspace: &mut [u32],
        place: &mut u8,
    ) -> u8 {
        let (words, n_words) = (words.as_ptr(), words.len());
        let (rows, n_rows) = (rows.as_ptr(), rows.len());
        let (space, n_space) = (workspace.as_mut_ptr(), workspace.len());
        // SAFETY: 1 and 2 by the parameters' types; 3 asks nothing, since no monitor is lent.
        unsafe {
            (self.satisfies)(
                users, roles, words, n_words, rows, n_rows, counts, space, n_space, place,
            )
        }
    }

    /// The normal form.
    pub fn normal_form(
        &self,
        users: u8,
        roles: u8,
        words: &[u32],
        out: &mut [u32],
        place: &mut u8,
    ) -> u8 {
        let (words, n_words) = (words.as_ptr(), words.len());
        let (out, n_out) = (out.as_mut_ptr(), out.len());
        // SAFETY: 1 and 2 by the parameters' types; 3 asks nothing, since no monitor is lent.
        unsafe { (self.normal_form)(users, roles, words, n_words, out, n_out, place) }
    }

    /// A policy's text read: its words at the start of the output, and how many they are. A refusal
    /// leaves both.
    pub fn read_text(
        &self,
        users: u8,
        roles: u8,
        text: &[u8],
        out: &mut [u32],
        written: &mut usize,
        place: &mut u8,
    ) -> u8 {
        let (text, n_text) = (text.as_ptr(), text.len());
        let (out, n_out) = (out.as_mut_ptr(), out.len());
        // SAFETY: 1 and 2 by the parameters' types; 3 asks nothing, since no monitor is lent.
        unsafe { (self.read_text)(users, roles, text, n_text, out, n_out, written, place) }
    }

    /// A policy's text at the start of the output, and how many bytes it has. A refusal leaves both.
    pub fn write_text(
        &self,
        users: u8,
        roles: u8,
        words: &[u32],
        out: &mut [u8],
        written: &mut usize,
        place: &mut u8,
    ) -> u8 {
        let (words, n_words) = (words.as_ptr(), words.len());
        let (out, n_out) = (out.as_mut_ptr(), out.len());
        // SAFETY: 1 and 2 by the parameters' types; 3 asks nothing, since no monitor is lent.
        unsafe { (self.write_text)(users, roles, words, n_words, out, n_out, written, place) }
    }

    /// The version of the library: major, minor and patch number, a byte each, the patch lowest.
    pub fn version(&self) -> u32 {
        // SAFETY: nothing is lent.
        unsafe { (self.version)() }
    }

    /// The number of the layout that the library has. It is [`LAYOUT`], or else the library is
    /// another one than this crate was written for, and no monitor may be lent to it.
    pub fn layout(&self) -> u32 {
        // SAFETY: nothing is lent.
        unsafe { (self.layout)() }
    }
}
