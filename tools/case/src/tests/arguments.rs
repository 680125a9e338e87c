//! The command line.

use std::ffi::OsString;
use std::path::Path;

use crate::arguments::{parse, Verb};
use crate::words::Language;

/// A command line read: its verb, input and output.
fn read(line: &str) -> Result<(Verb, String, String), String> {
    let arguments: Vec<OsString> = line.split_whitespace().map(OsString::from).collect();
    let command = parse(&arguments)?;
    let name = |path: &Option<_>| {
        path.as_ref()
            .map_or("", |path: &std::path::PathBuf| path.to_str().unwrap_or("?"))
            .to_string()
    };
    Ok((command.verb, name(&command.input), name(&command.output)))
}

#[test]
fn verbs_and_files() {
    let is = |line: &str, verb, input: &str, output: &str| {
        assert_eq!(read(line), Ok((verb, input.to_string(), output.to_string())), "{line}");
    };
    is("write", Verb::Write, "", "");
    is("write a.txt -o a.case", Verb::Write, "a.txt", "a.case");
    is("show -o a.txt a.case", Verb::Show, "a.case", "a.txt");
    is("run a.txt", Verb::Run, "a.txt", "");
    is("words c a.txt", Verb::Words(Language::C), "a.txt", "");
    is("words rust", Verb::Words(Language::Rust), "", "");
    is("normal a.txt", Verb::Normal, "a.txt", "");
    is("alternatives a.txt", Verb::Alternatives, "a.txt", "");
    for help in ["--help", "-h", "help"] {
        is(help, Verb::Help, "", "");
    }
}

#[test]
fn a_policy_may_stand_for_a_file() {
    let policy = |input: &str| {
        let command = parse(&["normal".into(), input.into()]).expect("a command");
        command.policy().map(String::from)
    };
    for text in ["policy: (r0 apart r1)", "policy:r0", "policy:", "  policy: all\n"] {
        assert_eq!(policy(text).as_deref(), Some(text));
    }
    for file in ["policy", "policy.txt", "./policy: all", "my policy: all", "users 1\npolicy: all"]
    {
        assert_eq!(policy(file), None, "{file}");
    }
    let command = parse(&["normal".into()]).expect("a command");
    assert_eq!(command.policy(), None);
}

#[test]
fn wrong_command_lines_say_why() {
    let is = |line: &str, expected: &str| assert_eq!(read(line), Err(expected.to_string()));
    is("", "a verb is missing");
    is("print", "`print` is no verb");
    is("words", "`words` is followed by `c` or `rust`");
    is("words a.txt", "`words` is followed by `c` or `rust`");
    is("write -o", "a file is missing behind `-o`");
    is("write -x", "`-x` is no option");
    is("write a b", "`b` is one file too many");
    is("write -o a -o b", "`b` is one file too many");
}

#[cfg(unix)]
#[test]
fn names_of_files_are_any_bytes() {
    use std::os::unix::ffi::OsStringExt;
    let name = OsString::from_vec(vec![b'a', 0xff]);
    let command = parse(&["run".into(), name.clone()]).expect("a command");
    assert_eq!(command.input.as_deref(), Some(Path::new(&name)));
}
