//! The program: `judge`, `selfcheck SEED COUNT` and `generate SEED COUNT DIR`.

#![forbid(unsafe_code)]

use std::io::{Read, Write};
use std::path::Path;
use std::process::ExitCode;

use reference::casefile::{judge, MOST_BYTES};
use reference::generate::case_files;
use reference::selfcheck::selfcheck;

/// What the program can do.
const USAGE: &str = "usage: reference judge < CASE
       reference selfcheck SEED COUNT
       reference generate SEED COUNT DIR";

fn main() -> ExitCode {
    let arguments: Vec<String> = std::env::args().skip(1).collect();
    let arguments: Vec<&str> = arguments.iter().map(String::as_str).collect();
    let done = match arguments[..] {
        ["judge"] => run_judge(),
        ["selfcheck", seed, count] => run_selfcheck(seed, count),
        ["generate", seed, count, directory] => run_generate(seed, count, Path::new(directory)),
        _ => Err(USAGE.to_string()),
    };
    match done {
        Ok(code) => code,
        Err(message) => {
            eprintln!("{message}");
            ExitCode::from(2)
        }
    }
}

/// Reads a case file from standard input and prints what the judge prints.
fn run_judge() -> Result<ExitCode, String> {
    let mut bytes = Vec::new();
    let mut input = std::io::stdin().lock().take(MOST_BYTES as u64 + 1);
    input.read_to_end(&mut bytes).map_err(|error| error.to_string())?;
    let text = judge(&bytes);
    std::io::stdout().write_all(text.as_bytes()).map_err(|error| error.to_string())?;
    Ok(ExitCode::SUCCESS)
}

/// A number from the command line.
fn number(text: &str) -> Result<u64, String> {
    text.parse().map_err(|_| format!("{text} is no number"))
}

/// Runs the self check and says how many checks passed and failed.
fn run_selfcheck(seed: &str, count: &str) -> Result<ExitCode, String> {
    let tally = selfcheck(number(seed)?, number(count)? as usize);
    for (name, count) in &tally.covered {
        println!("covered: {count} {name}");
    }
    println!("{} passed, {} failed", tally.passed, tally.failed);
    Ok(if tally.failed == 0 { ExitCode::SUCCESS } else { ExitCode::FAILURE })
}

/// Writes case files into a directory, named by their place and what they try.
fn run_generate(seed: &str, count: &str, directory: &Path) -> Result<ExitCode, String> {
    std::fs::create_dir_all(directory).map_err(|error| error.to_string())?;
    let files = case_files(number(seed)?, number(count)? as usize);
    for (place, (name, bytes)) in files.iter().enumerate() {
        let plain: String =
            name.chars().map(|c| if c.is_ascii_alphanumeric() { c } else { '-' }).collect();
        let path = directory.join(format!("{place:06}-{plain}.case"));
        std::fs::write(path, bytes).map_err(|error| error.to_string())?;
    }
    println!("{} files written", files.len());
    Ok(ExitCode::SUCCESS)
}
