//! What the functions for C begin with.

use super::*;

/// The slice that a caller lends; the pointer of an empty one is not looked at.
unsafe fn lent<'a, T>(first: *const T, length: usize) -> &'a [T] {
    if length == 0 {
        return &[];
    }
    std::slice::from_raw_parts(first, length)
}

/// The slice that a caller lends for writing.
unsafe fn lent_mut<'a, T>(first: *mut T, length: usize) -> &'a mut [T] {
    if length == 0 {
        return &mut [];
    }
    std::slice::from_raw_parts_mut(first, length)
}
