//! Why stored bytes cannot be reloaded.

use std::error::Error;
use std::fmt;

use crate::monitor::Monitor;
use crate::raw::LAYOUT;
use crate::refusal::Refusal;

/// Why a stored monitor cannot be reloaded.
#[derive(Clone, Copy, Debug, PartialEq, Eq, Hash)]
#[non_exhaustive]
pub enum ReloadFault {
    /// It was stored under this layout, which is not [`LAYOUT`].
    ///
    /// One of an earlier layout has no status letter. None can be filled in: only an opening and events
    /// give one that is right, and a wrong one would be believed. Open the monitor anew and send its
    /// accepted events again, in their order.
    Layout(u32),
    /// These are so many bytes, which is not [`Monitor::BYTES`].
    Length(usize),
    /// The bytes are no well-formed monitor: damaged, or not stored under this layout after all. Each
    /// call on what [`Monitor::from_bytes`] makes of them answers [`Refusal::Monitor`].
    Malformed,
}

impl fmt::Display for ReloadFault {
    fn fmt(&self, f: &mut fmt::Formatter<'_>) -> fmt::Result {
        match *self {
            ReloadFault::Layout(layout) if layout < LAYOUT => write!(
                f,
                "stored under layout {layout}, before layout {LAYOUT}: the monitor has no status \
                 letter, and none can be filled in; open it anew and send its accepted events again, \
                 in their order"
            ),
            ReloadFault::Layout(layout) => write!(
                f,
                "stored under layout {layout}, by a later version than this one, which has layout \
                 {LAYOUT}"
            ),
            ReloadFault::Length(bytes) => {
                write!(f, "{bytes} bytes, but a monitor is stored in {}", Monitor::BYTES)
            }
            ReloadFault::Malformed => write!(f, "{}", Refusal::Monitor),
        }
    }
}

impl Error for ReloadFault {}

#[cfg(test)]
mod tests {
    use super::*;

    #[test]
    fn faults_say_what_is_wrong() {
        let told = |fault: ReloadFault| fault.to_string();
        assert_eq!(
            told(ReloadFault::Layout(3)),
            "stored under layout 3, before layout 4: the monitor has no status letter, and none can be \
             filled in; open it anew and send its accepted events again, in their order"
        );
        assert_eq!(
            told(ReloadFault::Layout(5)),
            "stored under layout 5, by a later version than this one, which has layout 4"
        );
        assert_eq!(told(ReloadFault::Length(260)), "260 bytes, but a monitor is stored in 592");
        assert_eq!(told(ReloadFault::Malformed), "15: monitor malformed");
    }
}
