//! Refused policies and the place of their fault, beside the opening of an accepted one and beside
//! what can be found by numbers alone.

use crate::candidates::{Candidate, Proved, Searched, NO_PLACE};
use crate::cases::{self, Case};
use crate::library::{Library, Stored};
use crate::table::{columns, line, of_earlier, ratio, time};
use crate::timing::{self, Timed};
use crate::tuned::Monitor;
use crate::{agree, Builds};

/// What stands over the rows.
const HEAD: &str = "
Refused policies: an opening that is answered by a number and a place.

- (a) the call
- accepted: the opening under the policy of 31 words from which the refused ones are made
- numbers: the place by the library's numbers alone, from openings under parts of the policy
- (b) the reference program: the number, then the place
- (c) the call tuned by hand

An earlier build, where there is one, may tell the number alone.
";

/// The place of a policy's fault by the library's numbers alone: beginnings of the policy are opened,
/// and for 4 the term at each not and plus, until a number tells.
struct ByNumbers<'a> {
    case: &'a Case,
    library: &'a Library,
    now: Stored,
    part: Stored,
    place: u8,
}

impl<'a> ByNumbers<'a> {
    /// With the input of a case.
    fn new(case: &'a Case, library: &'a Library) -> ByNumbers<'a> {
        let now = library.stored(&Monitor::default());
        ByNumbers { case, library, now, part: now, place: NO_PLACE }
    }

    /// The number of an opening under some words of the policy.
    fn number(&mut self, words: &[u32]) -> u8 {
        let (users, roles) = (self.case.users(), self.case.roles);
        let (counts, rows) = ((users, roles), &self.case.policy.rows);
        self.library.open(&mut self.part, counts, words, rows, (&[], &[]), &mut 0)
    }

    /// The first beginning with one of two numbers: its length and its number.
    fn beginning(&mut self, words: &[u32], numbers: [u8; 2]) -> Option<(usize, u8)> {
        let mut all = (1..=words.len()).map(|length| (length, self.number(&words[..length])));
        all.find(|(_, number)| numbers.contains(number))
    }

    /// Whether a not or a plus begins a term that gets 4. It then stands over no unit term itself,
    /// even if it is one further inside that gets it.
    fn is_misplaced(&mut self, words: &[u32]) -> bool {
        let term = matches!(words[0] >> 24, 4 | 5).then(|| self.beginning(words, [0, 4]));
        matches!(term, Some(Some((_, 4))))
    }

    /// The place of the fault with this number.
    fn found(&mut self, number: u8) -> Option<usize> {
        let words = &self.case.policy.words[..];
        match number {
            1 => Some(0),
            2 => self.beginning(words, [2; 2]).map(|(length, _)| length - 1),
            3 => Some(self.beginning(words, [0, 4]).map_or(words.len(), |(length, _)| length)),
            4 => (0..words.len()).find(|place| self.is_misplaced(&words[*place..])),
            _ => None,
        }
    }
}

impl Candidate for ByNumbers<'_> {
    fn run(&mut self) -> u8 {
        let Case { policy, .. } = self.case;
        let (users, roles) = (self.case.users(), self.case.roles);
        let (words, rows) = (&policy.words, &policy.rows);
        let counts = (users, roles);
        let number = self.library.open(&mut self.now, counts, words, rows, (&[], &[]), &mut 0);
        self.place = self.found(number).map_or(NO_PLACE, |place| place as u8);
        number
    }

    fn monitor(&self) -> Monitor {
        self.library.monitor(&self.now)
    }

    fn words(&self) -> Option<&[u32]> {
        Some(&[])
    }

    fn place(&self) -> Option<u8> {
        Some(self.place)
    }
}

/// A case and the times of its candidates.
struct Row {
    name: String,
    accepted: Timed,
    numbers: Timed,
    search: Timed,
    proved: Timed,
    tuned: Timed,
    earlier: Option<Timed>,
}

impl Row {
    /// Measures a case.
    fn new(builds: &Builds, case: &Case) -> Row {
        let accepted = cases::accepted();
        let mut all: Vec<Box<dyn Candidate>> = vec![
            Box::new(ByNumbers::new(case, &builds.linked)),
            Box::new(Searched::new(case, false)),
        ];
        all.extend(builds.main_candidates(case));
        agree(case, &mut all);
        all.insert(0, Box::new(Proved::new(&accepted, &builds.linked)));
        let (times, earlier) = timing::compare_named(&mut all);
        let [accepted, numbers, search, proved, tuned] = times;
        let name = case.name().join(" | ");
        Row { name, accepted, numbers, search, proved, tuned, earlier }
    }

    /// Prints the row.
    fn print(&self, earlier: bool) {
        let Row { accepted, numbers, search, proved, tuned, .. } = self;
        let mut cells = [proved, accepted, numbers, search, tuned].map(time).to_vec();
        cells.extend([accepted, numbers, tuned].map(|other| ratio(proved.over(other))));
        cells.push(ratio(search.over(proved)));
        if earlier {
            cells.extend(of_earlier(self.earlier.as_ref(), |own| proved.over(own)));
        }
        line(&self.name, &cells);
    }
}

/// Prints the table.
pub fn print(builds: &Builds) {
    println!("{HEAD}");
    let earlier = builds.earlier.is_some();
    let times = "(a) | accepted | numbers | (b) | (c) | a/accepted | a/numbers | a/c | b/a";
    columns("actions", times, earlier.then_some("a/e"));
    for case in cases::refused() {
        Row::new(builds, &case).print(earlier);
    }
}

#[cfg(test)]
mod tests {
    use super::*;
    use crate::candidates::Tuned;
    use crate::tuned::rows::fill;

    #[test]
    fn every_row_is_refused_as_its_name_says_by_all() {
        let linked = Library::linked().expect("a library");
        for case in cases::refused() {
            let mut all: Vec<Box<dyn Candidate>> = vec![
                Box::new(ByNumbers::new(&case, &linked)),
                Box::new(Searched::new(&case, true)),
                Box::new(Proved::new(&case, &linked)),
                Box::new(Tuned::new(&case, fill)),
            ];
            for candidate in &mut all {
                let number = candidate.run();
                let place = candidate.place().expect("each tells places");
                assert_eq!(format!("refused: {number} at {place}"), case.what);
                assert_eq!(candidate.monitor(), Monitor::default(), "{}", case.what);
            }
        }
    }
}
