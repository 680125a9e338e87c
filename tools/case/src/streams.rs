//! What is read and written.

use std::ffi::OsString;
use std::fs::{self, File};
use std::io::{self, Read, Write};
use std::path::{Path, PathBuf};

use crate::quote::plain;

/// The most bytes that are read: more than any case needs, and little for a machine.
const MOST_BYTES: usize = 16 << 20;

/// All of a file, or of standard input.
///
/// # Errors
/// Why it cannot be read.
pub fn input(path: Option<&Path>) -> Result<Vec<u8>, String> {
    let name = path.unwrap_or(Path::new("standard input"));
    let read = match path {
        Some(path) => File::open(path).and_then(all),
        None => all(io::stdin().lock()),
    };
    read.map_err(|error| message(name, &error))
}

/// All that can be read, if it is not too much.
fn all(from: impl Read) -> io::Result<Vec<u8>> {
    let mut bytes = Vec::new();
    from.take(MOST_BYTES as u64 + 1).read_to_end(&mut bytes)?;
    if bytes.len() > MOST_BYTES {
        return Err(io::Error::other(format!("more than {MOST_BYTES} bytes")));
    }
    Ok(bytes)
}

/// Writes a file, or to standard output. A file is written whole or not at all.
///
/// # Errors
/// Why it cannot be written.
pub fn output(path: Option<&Path>, bytes: &[u8]) -> Result<(), String> {
    let written = match path {
        Some(path) if is_special(path) => {
            File::options().write(true).open(path).and_then(|mut file| file.write_all(bytes))
        }
        Some(path) => replace(&fs::canonicalize(path).unwrap_or(path.to_path_buf()), bytes),
        None => {
            let mut out = io::stdout().lock();
            out.write_all(bytes).and_then(|()| out.flush())
        }
    };
    written.map_err(|error| message(path.unwrap_or(Path::new("standard output")), &error))
}

/// What went wrong with a file.
fn message(path: &Path, error: &io::Error) -> String {
    format!("{}: {error}", plain(&path.to_string_lossy()))
}

/// Whether a path is there and is no plain file: a device is written, never replaced.
fn is_special(path: &Path) -> bool {
    fs::metadata(path).is_ok_and(|found| !found.is_file())
}

/// Puts a file in its place once all of it is written beside it.
fn replace(path: &Path, bytes: &[u8]) -> io::Result<()> {
    let beside = beside(path);
    let mut file = File::create_new(&beside)?;
    let written = file.write_all(bytes).and_then(|()| file.sync_all());
    let placed = written.and_then(|()| fs::rename(&beside, path));
    if placed.is_err() {
        // the first error is the one to tell
        let _ = fs::remove_file(&beside);
    }
    placed
}

/// A name beside a file that no other run uses.
fn beside(path: &Path) -> PathBuf {
    let mut name = OsString::from(path);
    name.push(format!(".part{}", std::process::id()));
    name.into()
}
