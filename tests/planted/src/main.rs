//! Turns the sources of all crates into plain Rust that no prover has to accept, with a planted
//! mistake or without: `plain CRATES OUT [EDIT]`.
//!
//! Rattle's code is Rust but for its contracts. What is dropped: `requires` and `ensures` clauses,
//! ghost items, ghost fields and ghost members. What is added: Rust passes a slice to C in another
//! way, so a function with the C calling convention is a Rust function, beside one for C that hands
//! on to it.

#![forbid(unsafe_code)]

use std::fs;
use std::path::{Path, PathBuf};
use std::process::ExitCode;

#[cfg(test)]
mod tests;

mod boundary;

fn main() -> ExitCode {
    let arguments: Vec<String> = std::env::args().skip(1).collect();
    let done = match arguments.iter().map(Path::new).collect::<Vec<_>>()[..] {
        [crates, out] => translate(crates, out, &[]),
        [crates, out, edit] => read(edit)
            .and_then(|text| replacements(&text))
            .and_then(|replacements| translate(crates, out, &replacements)),
        _ => Err("usage: plain CRATES OUT [EDIT]".to_string()),
    };
    match done {
        Ok(()) => ExitCode::SUCCESS,
        Err(message) => {
            eprintln!("plain: {message}");
            ExitCode::from(2)
        }
    }
}

/// The text of a file.
fn read(path: &Path) -> Result<String, String> {
    fs::read_to_string(path).map_err(|error| format!("{}: {error}", path.display()))
}

/// One replacement of an edit: the file, below the folder of the crates, and both texts.
#[derive(Clone, Debug, PartialEq, Eq)]
struct Replacement {
    file: PathBuf,
    old: String,
    new: String,
}

/// The replacements of an edit: a `file:` line holds for the `old:` and `new:` pairs after it.
fn replacements(edit: &str) -> Result<Vec<Replacement>, String> {
    let (mut file, mut old) = (PathBuf::new(), String::new());
    let mut found = Vec::new();
    for line in edit.lines() {
        if let Some(text) = line.strip_prefix("file: ") {
            file = PathBuf::from(text);
        } else if let Some(text) = line.strip_prefix("old: ") {
            old = text.to_string();
        } else if let Some(text) = line.strip_prefix("new:") {
            let new = text.strip_prefix(' ').unwrap_or(text).to_string();
            found.push(Replacement { file: file.clone(), old: std::mem::take(&mut old), new });
        }
    }
    if found.iter().any(|replacement| replacement.old.is_empty()) {
        return Err("a `new:` line has no `old:` line before it".to_string());
    }
    if found.is_empty() {
        return Err("the edit has no pair of `old:` and `new:`".to_string());
    }
    Ok(found)
}

/// A source with the replacements of its file made. An old text must be there exactly once.
fn edited(file: &Path, text: String, replacements: &[Replacement]) -> Result<String, String> {
    let mut text = text;
    for replacement in replacements.iter().filter(|replacement| replacement.file == file) {
        let count = text.matches(&replacement.old).count();
        if count != 1 {
            return Err(format!("{count} times in {}: {}", file.display(), replacement.old));
        }
        text = text.replacen(&replacement.old, &replacement.new, 1);
    }
    Ok(text)
}

/// Writes the sources of each crate, `CRATES/NAME/src/*.rt`, as `OUT/NAME/*.rs`.
fn translate(crates: &Path, out: &Path, replacements: &[Replacement]) -> Result<(), String> {
    let mut seen = Vec::new();
    for name in entries(crates)? {
        let sources = crates.join(&name).join("src");
        if !sources.is_dir() {
            continue;
        }
        let folder = out.join(&name);
        fs::create_dir_all(&folder).map_err(|error| error.to_string())?;
        for source in entries(&sources)? {
            let file = Path::new(&name).join("src").join(&source);
            let text = edited(&file, read(&sources.join(&source))?, replacements)?;
            let path = folder.join(&source).with_extension("rs");
            fs::write(path, to_rust(&text)).map_err(|error| error.to_string())?;
            seen.push(file);
        }
    }
    match replacements.iter().find(|replacement| !seen.contains(&replacement.file)) {
        Some(replacement) => Err(format!("there is no {}", replacement.file.display())),
        None => Ok(()),
    }
}

/// The names in a folder.
fn entries(folder: &Path) -> Result<Vec<PathBuf>, String> {
    let found = fs::read_dir(folder).map_err(|error| format!("{}: {error}", folder.display()))?;
    let mut names: Vec<PathBuf> = found.flatten().map(|entry| entry.file_name().into()).collect();
    names.sort();
    Ok(names)
}

/// The length of the name or number at the start of a text.
fn name_length(text: &str) -> usize {
    text.find(|c: char| !c.is_alphanumeric() && c != '_').unwrap_or(text.len())
}

/// The length of a text up to the brace that closes its first one.
fn clause_length(text: &str) -> usize {
    let mut open = 0;
    for (place, c) in text.char_indices() {
        match c {
            '{' => open += 1,
            '}' if open == 1 => return place + 1,
            '}' => open -= 1,
            _ => {}
        }
    }
    text.len()
}

/// The length of a ghost item, which ends in a semicolon, or of a ghost field or member, whose
/// braces a comma or a semicolon follows.
fn ghost_length(text: &str) -> usize {
    if text.starts_with("ghost use ") {
        return text.find(';').map_or(text.len(), |place| place + 1);
    }
    let length = clause_length(text);
    length + usize::from(text[length..].starts_with([',', ';']))
}

/// How much of a text is dropped at a name that begins it.
fn dropped(name: &str, text: &str) -> usize {
    match name {
        "requires" | "ensures" => clause_length(text),
        "ghost" => ghost_length(text),
        "extern" => text.find("fn").unwrap_or(0),
        _ => 0,
    }
}

/// A Rattle source as Rust.
fn to_rust(source: &str) -> String {
    let mut code = String::new();
    let mut rest = source;
    while let Some(c) = rest.chars().next() {
        let comment = rest.starts_with("//");
        let name = &rest[..name_length(rest)];
        let skipped = dropped(name, rest);
        let kept = match () {
            _ if skipped > 0 => 0,
            _ if comment => rest.find('\n').unwrap_or(rest.len()),
            _ => name.len().max(c.len_utf8()),
        };
        code += &rest[..kept];
        rest = &rest[kept.max(skipped)..];
    }
    with_attributes(&with_numbers(&code)) + &boundary::of(source)
}

/// The code with Rust's names for sums and differences that wrap: `num::wrapping_add_u8` of Rattle's
/// library is `u8::wrapping_add`.
fn with_numbers(code: &str) -> String {
    let mut code = code.replace("use std::num;\n", "");
    for name in ["add", "sub"] {
        for kind in ["u8", "u16", "u32", "u64", "usize"] {
            let call = format!("num::wrapping_{name}_{kind}(");
            code = code.replace(&call, &format!("{kind}::wrapping_{name}("));
        }
    }
    code
}

/// Whether a line is an attribute that only Rattle reads.
fn is_rattles(line: &str) -> bool {
    let line = line.trim_start();
    ["#[unsafe(no_mangle)]", "#[cycle(", "#[tactic(", "#![tactic("]
        .iter()
        .any(|start| line.starts_with(start))
}

/// The code without the attributes that only Rattle reads.
fn with_attributes(code: &str) -> String {
    code.lines().filter(|line| !is_rattles(line)).map(|line| format!("{line}\n")).collect()
}
