//! A build of the library that is loaded beside the linked one, by the version that it tells: what
//! each version was the first to have, and the calls that had other parameters before it.
//!
//! | version | the first to have | layout of its monitor |
//! |---|---|---|
//! | 0.1.0 | the calls that tell version and layout | 2; before it 1 |
//! | 0.2.0 | who may act | 2 |
//! | 0.3.0 | the place of a policy's fault, behind the parameters of each call that reads one | 2 |
//! | 0.5.0 | permissions and workflows, in an opening and in who may act | 3 |
//! | 0.6.0 | a monitor that keeps its status, whose call then takes no workspace | 4 |
//! | 0.7.0 | a policy's text, read and written | 4 |
//! | 0.8.0 | a promise of the order of a multiset's actions, which is as it was | 4 |

use std::ffi::{c_char, c_int, c_void, CString};
use std::mem::transmute;
use std::ptr::NonNull;

use oskhrein::raw::Calls;

use super::Stored;

/// The first version that tells who may act.
pub const WITH_ENABLED: u32 = 0x000200;
/// The first version that tells the place of a policy's fault.
pub const WITH_PLACES: u32 = 0x000300;
/// The first version that has permissions and workflows.
pub const WITH_WORKFLOWS: u32 = 0x000500;
/// The first version whose monitors keep their status.
const WITH_STATUS: u32 = 0x000600;
/// The first version that reads and writes texts.
pub const WITH_TEXTS: u32 = 0x000700;

/// An opening before 0.5.0. Before 0.3.0 it lacks the last parameter, which the caller passes and takes
/// back, so that it need not know of it.
type Open =
    unsafe extern "C" fn(*mut Stored, u8, u8, *const u32, usize, *const u16, usize, *mut u8) -> u8;

/// Who may act before 0.5.0, whatever the action.
type Enabled = unsafe extern "C" fn(*const Stored, *mut u32, usize, *mut u16) -> u8;

/// The status before 0.6.0, with a workspace, which speaks of the taken actions then.
type Status = unsafe extern "C" fn(*const Stored, *mut u32, usize) -> u8;

/// The calls of a build whose parameters are not the linked library's. Those that are none are the
/// same.
#[derive(Clone, Copy, Default)]
pub struct Others {
    pub open: Option<Open>,
    pub enabled: Option<Enabled>,
    pub status: Option<Status>,
}

/// The names of these calls.
const OPEN: &str = "oskhrein_open";
const ENABLED: &str = "oskhrein_enabled";
const STATUS: &str = "oskhrein_status";

/// What a build before 0.1.0 says of itself.
extern "C" fn unknown() -> u32 {
    0
}

/// What a build before 0.2.0 answers when it is asked who may act: it is not asked.
extern "C" fn unasked(_: *const Stored, _: *mut u32, _: usize, _: *mut u16) -> u8 {
    u8::MAX
}

/// What stands in for reading and writing texts in a build before 0.7.0, which is not asked for it.
extern "C" fn uncalled() -> u8 {
    u8::MAX
}

/// What stands in for a function that a build lacks.
fn stand_in(name: &str) -> Option<NonNull<c_void>> {
    match name {
        "oskhrein_version" | "oskhrein_layout" => NonNull::new(unknown as *mut c_void),
        ENABLED => NonNull::new(unasked as *mut c_void),
        "oskhrein_read_text" | "oskhrein_write_text" => NonNull::new(uncalled as *mut c_void),
        _ => None,
    }
}

extern "C" {
    fn dlopen(name: *const c_char, flags: c_int) -> *mut c_void;
    fn dlsym(library: *mut c_void, name: *const c_char) -> *mut c_void;
}

/// The calls of a shared library, which stays open, and those of them that are other ones.
pub fn load(path: &str) -> Result<(Calls, Others), String> {
    const NOW: c_int = 2;
    let name = CString::new(path).map_err(|error| error.to_string())?;
    // SAFETY: the name ends in a zero byte.
    let library = unsafe { dlopen(name.as_ptr(), NOW) };
    if library.is_null() {
        return Err(format!("{path} is no shared library that can be opened"));
    }
    let own = |name: &str| {
        let text = CString::new(name).ok()?;
        // SAFETY: the library is open, and the name ends in a zero byte.
        NonNull::new(unsafe { dlsym(library, text.as_ptr()) })
    };
    let find = |name: &'static str| own(name).or_else(|| stand_in(name));
    // SAFETY: it is a build of the linked library. Those of its functions that are of another type in
    // an earlier version are then called by way of `Others` alone.
    let calls = unsafe { Calls::loaded(find) }.map_err(|name| format!("{path} has no {name}"))?;
    // SAFETY: what is found in a build of that version is the library's function of that name.
    let others = unsafe { Others::of(calls.version(), find) };
    Ok((calls, others))
}

impl Others {
    /// Those of a build of this version, found by name.
    ///
    /// # Safety
    /// What is found is the function of that name of a build of the library of that version.
    unsafe fn of(version: u32, find: impl Fn(&'static str) -> Option<NonNull<c_void>>) -> Others {
        let before = |first: u32, name| if version < first { find(name) } else { None };
        let open = before(WITH_WORKFLOWS, OPEN);
        let enabled = before(WITH_WORKFLOWS, ENABLED);
        let status = before(WITH_STATUS, STATUS);
        // SAFETY: the functions have these types in versions before those named.
        unsafe {
            Others {
                open: open.map(|found| transmute::<NonNull<c_void>, Open>(found)),
                enabled: enabled.map(|found| transmute::<NonNull<c_void>, Enabled>(found)),
                status: status.map(|found| transmute::<NonNull<c_void>, Status>(found)),
            }
        }
    }
}
