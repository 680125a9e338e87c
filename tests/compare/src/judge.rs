//! The judge program against the reference on case files.

use std::collections::BTreeMap;
use std::io::{ErrorKind, Write};
use std::path::PathBuf;
use std::process::{Command, ExitStatus, Stdio};

use reference::casefile::{self, read_case, Case};
use reference::code;
use reference::generate::{cases, edges, NamedFile, Random};

use crate::faults::{Faults, Policy};
use crate::leavers::Leavers;
use crate::refusals::{Files, Openings};
use crate::report::{Group, Report, Seen};
use crate::secure::Events;
use crate::statuses::Steps;

/// The numbers that refuse a case file or its opening.
const REFUSALS: &[u8] = &[1, 2, 3, 4, 5, 6, 14, 19];
/// The numbers that an event of a case file can get.
const EVENTS: &[u8] = &[0, 7, 8, 9, 10, 11, 16, 17];
/// The letters of the status.
const LETTERS: &[u8] = b"cdo";

/// A file in the repository's `target`, or where the environment says that it is.
fn place(variable: &str, below: &str) -> PathBuf {
    let own = format!("{}/../../target/{below}", env!("CARGO_MANIFEST_DIR"));
    std::env::var_os(variable).map_or(own.into(), PathBuf::from)
}

/// The judge program, with what was compared so far by kind of file.
pub struct Judge {
    program: PathBuf,
    seed: u64,
    groups: BTreeMap<String, Group>,
    refusals: Seen,
    faults: Faults,
    leavers: Leavers,
    secure: Events,
    steps: Steps,
    openings: Openings,
    files: Files,
    events: Seen,
    letters: Seen,
}

/// What the judge wrote and how it ended.
struct Ran {
    output: Vec<u8>,
    status: ExitStatus,
}

impl Judge {
    /// The judge program, nothing compared yet; the seed is named in what differs. Where every
    /// number must occur, a number that did not is a failure.
    pub fn new(seed: u64, every_number: bool) -> Result<Judge, String> {
        let program = place("JUDGE", "bin/judge");
        if !program.is_file() {
            return Err(format!("there is no judge at {}", program.display()));
        }
        let wanted = |numbers: &'static [u8]| if every_number { numbers } else { &[] };
        Ok(Judge {
            program,
            seed,
            groups: BTreeMap::new(),
            refusals: Seen::new("refused case files", wanted(REFUSALS)),
            faults: Faults::new("case files", every_number),
            leavers: Leavers::of_events("case files", every_number),
            secure: Events::new("case files", every_number),
            steps: Steps::new("case files", every_number),
            openings: Openings::new("case files", every_number),
            files: Files::new("case files", every_number),
            events: Seen::new("events", wanted(EVENTS)),
            letters: Seen::new("statuses", wanted(LETTERS)),
        })
    }

    /// Compares the judge with the reference on one file, the file with this number of its group.
    pub fn check(&mut self, group: &str, number: usize, (name, bytes): &NamedFile) {
        let ran = self.run(bytes);
        let expected = casefile::judge(bytes);
        let same = match &ran {
            Ok(ran) => ran.output == expected.as_bytes() && ran.status.success(),
            Err(_) => false,
        };
        if let Ok(ran) = &ran {
            self.count(bytes, &ran.output);
        }
        if let Ok(case) = read_case(bytes) {
            self.leavers.count_events(&case);
            self.secure.count(&case);
            self.steps.count(&case);
        }
        let seed = self.seed;
        let entry = self.groups.entry(group.to_string()).or_insert_with(|| Group::new(group));
        entry.check(same, || {
            let got = match ran {
                Ok(ran) => format!("{}, {:?}", ran.status, String::from_utf8_lossy(&ran.output)),
                Err(error) => error,
            };
            let kept = keep(&format!("{group}-{seed}-{number}.case"), bytes);
            format!("`{name}`, seed {seed}: {kept}\n  expected {expected:?}\n  got {got}")
        });
    }

    /// Whether a group has so many differences that more would tell nothing.
    pub fn is_enough(&self) -> bool {
        self.groups.values().any(Group::is_enough)
    }

    /// Runs the judge on a file.
    fn run(&self, bytes: &[u8]) -> Result<Ran, String> {
        let mut command = Command::new(&self.program);
        command.stdin(Stdio::piped()).stdout(Stdio::piped()).stderr(Stdio::null());
        let mut child = command.spawn().map_err(|error| error.to_string())?;
        let mut input = child.stdin.take().ok_or("no standard input")?;
        match input.write_all(bytes) {
            // The judge stops reading once it knows that a file is too long.
            Err(error) if error.kind() != ErrorKind::BrokenPipe => return Err(error.to_string()),
            _ => drop(input),
        }
        let ended = child.wait_with_output().map_err(|error| error.to_string())?;
        Ok(Ran { output: ended.stdout, status: ended.status })
    }

    /// Counts the numbers and letters of the output for a file.
    fn count(&mut self, bytes: &[u8], output: &[u8]) {
        for line in String::from_utf8_lossy(output).lines() {
            let fields: Vec<&str> = line.split(' ').collect();
            match fields[..] {
                ["refused", number] | ["refused", number, "at", _] => {
                    number.parse().iter().for_each(|n| self.count_refusal(bytes, *n));
                }
                [_, number, letter] => {
                    number.parse().iter().for_each(|n| self.events.count(*n));
                    letter.bytes().for_each(|letter| self.letters.count(letter));
                }
                _ => {}
            }
        }
    }

    /// Counts a refusal and, where the file could be read, its policy.
    fn count_refusal(&mut self, bytes: &[u8], number: u8) {
        self.refusals.count(number);
        self.files.count(bytes, number);
        let Ok(case) = read_case(bytes) else {
            return;
        };
        if u32::from(number) == code::SECURE {
            self.openings.count(&case);
        }
        let Case { users, roles, policy, .. } = case;
        let (users, roles) = (users.into(), roles.into());
        self.faults.count(Policy { users, roles, words: &policy }, number.into());
    }

    /// What was compared.
    pub fn report(self) -> Report {
        Report {
            groups: self.groups.into_values().collect(),
            seen: vec![
                self.refusals,
                self.faults.seen(),
                self.leavers.seen(),
                self.secure.seen(),
                self.steps.seen(),
                self.openings.seen(),
                self.files.seen(),
                self.events,
                self.letters,
            ],
        }
    }
}

/// Keeps a case file for a look at it, and says where.
fn keep(name: &str, bytes: &[u8]) -> String {
    let folder = place("DIFFERENCES", "differences");
    let path = folder.join(name.replace(' ', "-"));
    let written = std::fs::create_dir_all(&folder).and_then(|()| std::fs::write(&path, bytes));
    match written {
        Ok(()) => format!("kept as {}", path.display()),
        Err(error) => format!("not kept ({error}), bytes {bytes:02x?}"),
    }
}

/// Compares on the edges, then on random files of each kind in turn.
pub fn compare(seed: u64, count: usize) -> Result<Report, String> {
    let mut judge = Judge::new(seed, true)?;
    let edges = edges::all();
    let random_count = count.saturating_sub(edges.len());
    for (number, file) in edges.iter().take(count).enumerate() {
        judge.check("edges", number, file);
    }
    let mut random = Random::new(seed);
    for turn in 0..random_count {
        if judge.is_enough() {
            break;
        }
        let file = cases::random_file(&mut random, turn);
        judge.check(&format!("{} case files", file.0), turn, &file);
    }
    Ok(judge.report())
}
