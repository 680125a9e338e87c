//! The library whose calls are compared: the static one that is linked, or a shared one that is
//! loaded.

use std::ffi::{c_char, c_int, c_void, CString};
use std::ptr::NonNull;

use oskhrein::raw::{Action, Calls, Configuration, Instance, Monitor, Transition, Workflow};
use reference::raw::RawInstance;

extern "C" {
    fn dlopen(name: *const c_char, flags: c_int) -> *mut c_void;
    fn dlsym(library: *mut c_void, name: *const c_char) -> *mut c_void;
}

/// The calls of the shared library that `EMBED` names, else of the static library.
pub fn chosen() -> Result<Calls, String> {
    match std::env::var("EMBED") {
        Ok(path) => loaded(&path),
        Err(_) => Ok(Calls::LINKED),
    }
}

/// The calls of a shared library, which stays open.
fn loaded(path: &str) -> Result<Calls, String> {
    const NOW: c_int = 2;
    let name = CString::new(path).map_err(|error| error.to_string())?;
    // SAFETY: the name ends in a zero byte.
    let library = unsafe { dlopen(name.as_ptr(), NOW) };
    if library.is_null() {
        return Err(format!("{path} is no shared library that can be opened"));
    }
    let find = |name: &str| {
        let name = CString::new(name).ok()?;
        // SAFETY: the library is open, and the name ends in a zero byte.
        NonNull::new(unsafe { dlsym(library, name.as_ptr()) })
    };
    // SAFETY: it is made from the sources of the static library.
    let calls = unsafe { Calls::loaded(find) };
    calls.map_err(|name| format!("{path} has no {name}"))
}

/// A raw instance of the reference as C lays it out.
pub fn laid_out(raw: &RawInstance) -> Monitor {
    let configuration = Configuration {
        permissions: raw.permissions,
        user_roles: raw.user_roles,
        users: raw.users as u32,
        roles: raw.roles as u32,
    };
    let transition = |arrow: reference::secure::Transition| {
        let [state, action, next] = arrow.bytes();
        Transition { state, action, next }
    };
    let workflow = Workflow {
        transitions: raw.transitions.map(transition),
        final_states: raw.final_states,
        states: raw.states,
        count: raw.arrows,
    };
    let instance = Instance {
        policy: raw.policy,
        actions: raw.actions.map(|action| Action { user: action.user as u32, met: action.met }),
        workflow,
        words: raw.length as u8,
        taken: raw.count as u8,
        closed: raw.closed,
        status: raw.letter,
        state: raw.state as u32,
    };
    Monitor { configuration, instance }
}
