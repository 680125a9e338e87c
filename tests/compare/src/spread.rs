//! Which forms of policies were tried by spreading over either and by gathering (02, E9).

use reference::generate::spreading::pairs::Pair;
use reference::generate::spreading::{Side, Step, Way};
use reference::policy::{Operator, Term, MOST_WORDS};

use crate::report::Seen;

/// A kind of pair: its name, and whether a pair is of it.
type Kind = (&'static str, fn(&Pair) -> bool);

/// All kinds; each must occur.
const KINDS: [Kind; 24] = [
    ("both spread, left", |pair| has(pair, Way::Spread, Operator::Both, Side::Left)),
    ("both spread, right", |pair| has(pair, Way::Spread, Operator::Both, Side::Right)),
    ("both gathered, left", |pair| has(pair, Way::Gather, Operator::Both, Side::Left)),
    ("both gathered, right", |pair| has(pair, Way::Gather, Operator::Both, Side::Right)),
    ("together spread, left", |pair| has(pair, Way::Spread, Operator::Together, Side::Left)),
    ("together spread, right", |pair| has(pair, Way::Spread, Operator::Together, Side::Right)),
    ("together gathered, left", |pair| has(pair, Way::Gather, Operator::Together, Side::Left)),
    ("together gathered, right", |pair| has(pair, Way::Gather, Operator::Together, Side::Right)),
    ("apart spread, left", |pair| has(pair, Way::Spread, Operator::Apart, Side::Left)),
    ("apart spread, right", |pair| has(pair, Way::Spread, Operator::Apart, Side::Right)),
    ("apart gathered, left", |pair| has(pair, Way::Gather, Operator::Apart, Side::Left)),
    ("apart gathered, right", |pair| has(pair, Way::Gather, Operator::Apart, Side::Right)),
    ("under a not", |pair| is_under(pair, |over| matches!(over, Term::Not(_)))),
    ("under a plus", |pair| is_under(pair, |over| matches!(over, Term::Plus(_)))),
    ("a unit term", |pair| alters(pair, Term::is_unit)),
    ("no unit term", |pair| alters(pair, |term| !term.is_unit())),
    ("several steps", |pair| pair.form.made.len() > 1),
    ("31 words", |pair| pair.form.term.length() == MOST_WORDS),
    ("32 words", |pair| pair.form.term.length() == MOST_WORDS + 1),
    ("33 words or more", |pair| pair.form.term.length() > MOST_WORDS + 1),
    ("by way of more than 31 words", |pair| is_detour(pair)),
    ("another normal form", |pair| pair.term.normal() != pair.form.term.normal()),
    ("no workflow", |pair| pair.case.given.is_none()),
    ("a workflow", |pair| pair.case.given.is_some()),
];

/// Whether a step of this kind led to the other form.
fn has(pair: &Pair, way: Way, operator: Operator, side: Side) -> bool {
    let is_such = |step: &Step| (step.way, step.operator, step.side) == (way, operator, side);
    pair.form.made.iter().any(|(_, step)| is_such(step))
}

/// Whether some step altered a term inside one like this.
fn is_under(pair: &Pair, over: fn(&Term) -> bool) -> bool {
    let inside = |before: &Term, word: usize| {
        let terms = before.prefix_order().into_iter().enumerate().take(word);
        terms.filter(|(_, term)| over(term)).any(|(at, term)| word < at + term.length())
    };
    pair.form.made.iter().any(|(before, step)| inside(before, step.word))
}

/// Whether some step altered a term like this.
fn alters(pair: &Pair, like: fn(&Term) -> bool) -> bool {
    pair.form.made.iter().any(|(before, step)| like(before.prefix_order()[step.word]))
}

/// Whether the other form is no longer than a policy, but one on the way to it is.
fn is_detour(pair: &Pair) -> bool {
    let long = |term: &Term| term.length() > MOST_WORDS;
    !long(&pair.form.term) && pair.form.made.iter().any(|(before, _)| long(before))
}

/// The kinds of pairs that occurred.
#[derive(Clone, Debug)]
pub struct Forms {
    seen: Seen,
}

impl Forms {
    /// None yet; each must occur.
    pub fn new() -> Forms {
        Forms { seen: Seen::kinds("spread forms", KINDS.map(|(name, _)| name)) }
    }

    /// Counts a pair whose forms are not the same.
    pub fn count(&mut self, pair: &Pair) {
        for (name, _) in KINDS.iter().filter(|(_, holds)| holds(pair)) {
            self.seen.count_kind(name);
        }
    }

    /// What occurred.
    pub fn seen(self) -> Seen {
        self.seen
    }
}

#[cfg(test)]
mod tests {
    use super::*;
    use crate::report::Report;
    use reference::generate::spreading::pairs::{edges, random_pair};
    use reference::generate::Random;

    /// Asserts that there is each kind among the pairs whose forms differ.
    fn are_of_every_kind(pairs: impl IntoIterator<Item = Pair>) {
        let mut forms = Forms::new();
        let different = |pair: &Pair| pair.term != pair.form.term;
        pairs.into_iter().filter(different).for_each(|pair| forms.count(&pair));
        let report = Report { groups: vec![], seen: vec![forms.seen()] };
        assert!(report.passed(), "{report}");
    }

    #[test]
    fn edges_are_of_every_kind() {
        are_of_every_kind(edges().into_iter().map(|(_, pair)| pair));
    }

    #[test]
    fn random_pairs_are_of_every_kind() {
        let mut random = Random::new(5);
        are_of_every_kind((0..500).map(|_| random_pair(&mut random)));
    }
}
