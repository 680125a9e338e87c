//! Stands in for the toolchain's library of the same name: what the judge calls of it.

use std::io::{Read, Write};

/// Reads until the buffer is full or the input ends.
pub fn read_full(_input: i32, buffer: &mut [u8]) -> usize {
    let mut bytes = Vec::new();
    let most = buffer.len() as u64;
    std::io::stdin().lock().take(most).read_to_end(&mut bytes).expect("standard input is read");
    buffer[..bytes.len()].copy_from_slice(&bytes);
    bytes.len()
}

/// Writes all bytes.
pub fn write_all(_output: i32, bytes: &[u8]) -> bool {
    std::io::stdout().write_all(bytes).is_ok()
}
