//! The policy words that have no operand.

pub(crate) const ALL: u32 = 0x01000000;
pub(crate) const NOT: u32 = 0x04000000;
pub(crate) const PLUS: u32 = 0x05000000;
pub(crate) const EITHER: u32 = 0x06000000;
pub(crate) const BOTH: u32 = 0x07000000;
pub(crate) const TOGETHER: u32 = 0x08000000;
pub(crate) const APART: u32 = 0x09000000;
