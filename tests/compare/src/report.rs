//! What was compared, which answers occurred, and what differed.

use std::collections::BTreeMap;
use std::fmt;

/// How many differences of a group are printed.
const SHOWN: usize = 3;
/// After so many differences a group has said enough.
const ENOUGH: usize = 25;

/// A group of checks: it passes when nothing differs.
#[derive(Clone, Debug, Default)]
pub struct Group {
    name: String,
    compared: usize,
    different: usize,
}

impl Group {
    /// A group in which nothing was compared yet.
    pub fn new(name: &str) -> Group {
        Group { name: name.to_string(), ..Group::default() }
    }

    /// Counts one comparison; of the first differences it prints what the closure says.
    pub fn check(&mut self, same: bool, describe: impl FnOnce() -> String) {
        self.compared += 1;
        if same {
            return;
        }
        self.different += 1;
        if self.different <= SHOWN {
            println!("DIFFERENCE in {}: {}", self.name, describe());
        }
    }

    /// Whether the group has so many differences that more would tell nothing.
    pub fn is_enough(&self) -> bool {
        self.different >= ENOUGH
    }

    /// Whether something was compared and nothing differed.
    fn passed(&self) -> bool {
        self.compared > 0 && self.different == 0
    }
}

impl fmt::Display for Group {
    fn fmt(&self, formatter: &mut fmt::Formatter) -> fmt::Result {
        let verdict = if self.passed() { "passed" } else { "FAILED" };
        let Group { name, compared, different } = self;
        writeln!(formatter, "{verdict}: {name}: {compared} compared, {different} different")
    }
}

/// What is counted.
#[derive(Clone, Copy, Debug, PartialEq, Eq, PartialOrd, Ord)]
enum Counted {
    /// An answer: a number, or a letter by its byte.
    Answer(u8),
    /// A kind of input or output, by its name.
    Kind(&'static str),
}

impl fmt::Display for Counted {
    fn fmt(&self, formatter: &mut fmt::Formatter) -> fmt::Result {
        match self {
            Counted::Answer(answer) => formatter.write_str(&answer_text(*answer)),
            Counted::Kind(name) => formatter.write_str(name),
        }
    }
}

/// How often each answer of a call, or each kind of input or output, occurred.
#[derive(Clone, Debug)]
pub struct Seen {
    name: String,
    wanted: Vec<Counted>,
    counts: BTreeMap<Counted, usize>,
}

impl Seen {
    /// No answer yet; those wanted must all occur. With none wanted, the counts are printed alone.
    pub fn new(name: &str, wanted: &[u8]) -> Seen {
        let wanted = wanted.iter().copied().map(Counted::Answer).collect();
        Seen { name: format!("answers of {name}"), wanted, counts: BTreeMap::new() }
    }

    /// Nothing of these kinds yet; all must occur.
    pub fn kinds(name: &str, wanted: impl IntoIterator<Item = &'static str>) -> Seen {
        let wanted = wanted.into_iter().map(Counted::Kind).collect();
        Seen { name: format!("kinds of {name}"), wanted, counts: BTreeMap::new() }
    }

    /// Counts an answer.
    pub fn count(&mut self, answer: u8) {
        *self.counts.entry(Counted::Answer(answer)).or_default() += 1;
    }

    /// Counts something of this kind.
    pub fn count_kind(&mut self, name: &'static str) {
        *self.counts.entry(Counted::Kind(name)).or_default() += 1;
    }

    /// What is wanted and did not occur.
    fn missing(&self) -> Vec<Counted> {
        let absent = |wanted: &Counted| !self.counts.contains_key(wanted);
        self.wanted.iter().copied().filter(absent).collect()
    }
}

/// An answer as it is read: a letter, or a number.
pub fn answer_text(answer: u8) -> String {
    if answer.is_ascii_alphabetic() {
        char::from(answer).to_string()
    } else {
        answer.to_string()
    }
}

impl fmt::Display for Seen {
    fn fmt(&self, formatter: &mut fmt::Formatter) -> fmt::Result {
        let missing = self.missing();
        let verdict = match (&self.wanted[..], &missing[..]) {
            ([], _) => "counted",
            (_, []) => "passed",
            _ => "FAILED",
        };
        let pair = |(counted, count): (&Counted, &usize)| format!("{counted} {count}x");
        let counts: Vec<String> = self.counts.iter().map(pair).collect();
        write!(formatter, "{verdict}: {}: {}", self.name, counts.join(", "))?;
        for counted in missing {
            write!(formatter, "; {counted} NEVER")?;
        }
        writeln!(formatter)
    }
}

/// All groups of a comparison.
#[derive(Clone, Debug, Default)]
pub struct Report {
    /// The groups of checks.
    pub groups: Vec<Group>,
    /// The answers and kinds that occurred.
    pub seen: Vec<Seen>,
}

impl Report {
    /// How many groups passed and failed; that all wanted answers of a call, or all wanted kinds,
    /// occurred is one more.
    fn counts(&self) -> (usize, usize) {
        let groups = self.groups.iter().filter(|group| group.passed()).count();
        let wanting: Vec<&Seen> = self.seen.iter().filter(|seen| !seen.wanted.is_empty()).collect();
        let whole = wanting.iter().filter(|seen| seen.missing().is_empty()).count();
        let passed = groups + whole;
        (passed, self.groups.len() + wanting.len() - passed)
    }

    /// Whether every group passed.
    pub fn passed(&self) -> bool {
        self.counts().1 == 0
    }
}

impl fmt::Display for Report {
    fn fmt(&self, formatter: &mut fmt::Formatter) -> fmt::Result {
        for group in &self.groups {
            write!(formatter, "{group}")?;
        }
        for seen in &self.seen {
            write!(formatter, "{seen}")?;
        }
        let (passed, failed) = self.counts();
        writeln!(formatter, "{passed} passed, {failed} failed")
    }
}

#[cfg(test)]
mod tests {
    use super::*;

    /// A group with so many comparisons, the last of which differ.
    fn group(same: usize, different: usize) -> Group {
        let mut group = Group::new("some");
        (0..same).for_each(|_| group.check(true, String::new));
        (0..different).for_each(|_| group.check(false, String::new));
        group
    }

    #[test]
    fn groups_and_wanted_answers_are_counted() {
        let mut seen = Seen::new("some", &[0, b'y']);
        seen.count(0);
        let groups = vec![group(5, 0), group(5, 1), group(0, 0)];
        let mut report = Report { groups, seen: vec![seen.clone(), Seen::new("free", &[])] };
        assert!(report.to_string().ends_with("1 passed, 3 failed\n"), "{report}");
        assert!(report.to_string().contains("FAILED: answers of some: 0 1x; y NEVER"));
        report.seen[0].count(b'y');
        assert!(report.to_string().ends_with("2 passed, 2 failed\n"), "{report}");
        let mut kinds = Seen::kinds("masks", ["all", "none"]);
        kinds.count_kind("none");
        report.seen.push(kinds);
        assert!(report.to_string().contains("FAILED: kinds of masks: none 1x; all NEVER"));
        report.seen[2].count_kind("all");
        assert!(report.to_string().ends_with("3 passed, 2 failed\n"), "{report}");
        assert!(!report.passed() && group(0, ENOUGH).is_enough());
    }
}
