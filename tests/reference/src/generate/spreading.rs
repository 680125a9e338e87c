//! Spreading and gathering (02, E9, "Splitting a choice out of a joint duty"): the steps that a term
//! allows, other forms of it by any number of steps, and random terms with places for steps.

pub mod pairs;

use super::terms::{self, at, Style};
use super::Random;
use crate::policy::{Operator, Term, MOST_WORDS};

/// The operators that spread over either.
pub const SPREADING: [Operator; 3] = [Operator::Both, Operator::Together, Operator::Apart];

/// The side of the operator on which the choice stands.
#[derive(Clone, Copy, Debug, PartialEq, Eq)]
pub enum Side {
    /// Operator, either, B, C, A.
    Left,
    /// Operator, A, either, B, C.
    Right,
}

impl Side {
    /// Both sides.
    pub const ALL: [Side; 2] = [Side::Left, Side::Right];

    /// The term of the other side, and the term of this side.
    fn parted<'a>(self, (left, right): (&'a Term, &'a Term)) -> (&'a Term, &'a Term) {
        match self {
            Side::Left => (right, left),
            Side::Right => (left, right),
        }
    }

    /// The operator between the term of the other side and the term of this side.
    pub fn joined(self, operator: Operator, other: &Term, own: &Term) -> Term {
        let (left, right) = self.parted((other, own));
        Term::join(operator, left.clone(), right.clone())
    }
}

/// What a step does.
#[derive(Clone, Copy, Debug, PartialEq, Eq)]
pub enum Way {
    /// Operator, A, either, B, C becomes either, operator, A, B, operator, A, C.
    Spread,
    /// The way back.
    Gather,
}

impl Way {
    /// Both ways.
    pub const ALL: [Way; 2] = [Way::Spread, Way::Gather];
}

/// One step at one place of a term.
#[derive(Clone, Copy, Debug, PartialEq, Eq)]
pub struct Step {
    /// What it does.
    pub way: Way,
    /// The operator that is spread, or under which is gathered.
    pub operator: Operator,
    /// Where the choice is, or will be.
    pub side: Side,
    /// The word at which the term begins that it alters.
    pub word: usize,
}

/// The sides of a term that this operator joins.
fn sides(operator: Operator, term: &Term) -> Option<(&Term, &Term)> {
    match term {
        Term::Join(own, left, right) if *own == operator => Some((left, right)),
        _ => None,
    }
}

/// The term with its operator spread over the choice on this side.
fn spread(operator: Operator, side: Side, term: &Term) -> Option<Term> {
    let (a, choice) = side.parted(sides(operator, term)?);
    let (b, c) = sides(Operator::Either, choice)?;
    let whole = |chosen: &Term| side.joined(operator, a, chosen);
    Some(Term::join(Operator::Either, whole(b), whole(c)))
}

/// The term with what two alternatives share gathered, the choice on this side.
fn gather(operator: Operator, side: Side, term: &Term) -> Option<Term> {
    let (first, second) = sides(Operator::Either, term)?;
    let (a, b) = side.parted(sides(operator, first)?);
    let (same, c) = side.parted(sides(operator, second)?);
    let choice = || Term::join(Operator::Either, b.clone(), c.clone());
    (a == same).then(|| side.joined(operator, a, &choice()))
}

impl Step {
    /// What becomes of the term that begins at the step's word.
    fn of(&self, term: &Term) -> Option<Term> {
        match self.way {
            Way::Spread => spread(self.operator, self.side, term),
            Way::Gather => gather(self.operator, self.side, term),
        }
    }

    /// The whole term after the step.
    ///
    /// # Panics
    /// If the term does not allow it.
    pub fn after(&self, term: &Term) -> Term {
        let mut after = term.clone();
        let place = at(&mut after, self.word);
        *place = self.of(place).expect("the term allows the step");
        after
    }
}

/// Every step, at the term that begins at this word.
fn steps_at(word: usize) -> impl Iterator<Item = Step> {
    let sides = |way| Side::ALL.into_iter().map(move |side| (way, side));
    let ways = Way::ALL.into_iter().flat_map(sides);
    ways.flat_map(move |(way, side)| SPREADING.map(|operator| Step { way, operator, side, word }))
}

/// Every step that a term allows, anywhere in it.
pub fn steps(term: &Term) -> Vec<Step> {
    let terms = term.prefix_order();
    let allowed = |step: &Step| step.of(terms[step.word]).is_some();
    (0..terms.len()).flat_map(steps_at).filter(allowed).collect()
}

/// Another form of a term, and what led to it.
#[derive(Clone, Debug, PartialEq, Eq)]
pub struct Form {
    /// The other form.
    pub term: Term,
    /// The steps that spread or gathered, each with the term before it; exchanges and regroupings are
    /// not among them.
    pub made: Vec<(Term, Step)>,
}

impl Form {
    /// The term itself, with no step made.
    fn of(term: &Term) -> Form {
        Form { term: term.clone(), made: vec![] }
    }

    /// The form after one step more.
    pub fn after(mut self, step: Step) -> Form {
        let after = step.after(&self.term);
        let before = std::mem::replace(&mut self.term, after);
        self.made.push((before, step));
        self
    }

    /// The form after a random step more, if it allows one. What has passed 31 words only gathers, so
    /// that no form has more than twice as many.
    fn after_any(self, random: &mut Random) -> Form {
        let long = self.term.length() > MOST_WORDS;
        let mut allowed = steps(&self.term);
        allowed.retain(|step| !long || step.way == Way::Gather);
        if allowed.is_empty() {
            return self;
        }
        let step = random.pick(&allowed);
        self.after(step)
    }
}

/// Another form of a term after so many random steps anywhere in it, exchanges and regroupings mixed
/// in. Where the term allows a step, one is made, and the form is another one: if all came to nothing,
/// the form after one step alone.
pub fn other_form(random: &mut Random, term: &Term, count: usize) -> Form {
    let mut form = Form::of(term);
    for _ in 0..count {
        if random.percent(50) {
            terms::turn(random, &mut form.term);
        } else {
            form = form.after_any(random);
        }
    }
    if form.made.is_empty() || form.term == *term {
        let alone = Form::of(term).after_any(random);
        return if alone.made.is_empty() { form } else { alone };
    }
    form
}

/// A random term of at most this many words, at least five, that allows a step: as two whole
/// alternatives in some cases, else with a choice under an operator.
pub fn term(random: &mut Random, style: Style, most: usize) -> Term {
    let words = random.between(5, most);
    let joint = choosing(random, style, words, false);
    if random.percent(60) {
        return joint;
    }
    let alternatives = random.pick(&steps(&joint)).after(&joint);
    if alternatives.length() <= most {
        alternatives
    } else {
        joint
    }
}

/// A random term, or unit term, of exactly this many words; from five on it has a choice under an
/// operator.
fn choosing(random: &mut Random, style: Style, words: usize, unit: bool) -> Term {
    if words < 5 {
        let make = if unit { terms::unit } else { terms::term };
        return make(random, style, words);
    }
    if words > 5 && random.percent(20) {
        let inner = choosing(random, style, words - 1, true);
        let not = unit || random.percent(40);
        return if not { Term::not(inner) } else { Term::plus(inner) };
    }
    let operator = if unit { Operator::Both } else { random.pick(&SPREADING) };
    let first = random.between(1, words - 4);
    let second = random.between(1, words - 3 - first);
    let a = choosing(random, style, first, unit);
    let b = choosing(random, style, second, unit);
    let c = choosing(random, style, words - 2 - first - second, unit);
    random.pick(&Side::ALL).joined(operator, &a, &Term::join(Operator::Either, b, c))
}

#[cfg(test)]
mod tests {
    use super::*;
    use crate::policy::read_term;
    use crate::words::{ALL, APART, BOTH, EITHER, NOT, PLUS, TOGETHER};

    /// The term of these words, for two users and three roles.
    fn read(words: &[u32]) -> Term {
        read_term(2, 3, words).expect("the words are a term")
    }

    /// The words after the only step that these words allow.
    fn after(words: &[u32]) -> Vec<u32> {
        let term = read(words);
        let [step] = steps(&term)[..] else {
            panic!("{words:08x?} do not allow exactly one step");
        };
        step.after(&term).words()
    }

    #[test]
    fn each_operator_spreads_on_each_side_and_back() {
        let [a, b, c] = [0x02000000, 0x02000001, 0x02000002];
        for operator in [BOTH, TOGETHER, APART] {
            let right = [operator, a, EITHER, b, c];
            let spread = [EITHER, operator, a, b, operator, a, c];
            assert_eq!((after(&right), after(&spread)), (spread.to_vec(), right.to_vec()));
            let left = [operator, EITHER, b, c, a];
            let spread = [EITHER, operator, b, a, operator, c, a];
            assert_eq!((after(&left), after(&spread)), (spread.to_vec(), left.to_vec()));
        }
        let inside = [TOGETHER, ALL, NOT, BOTH, a, EITHER, b, c];
        let spread = [TOGETHER, ALL, NOT, EITHER, BOTH, a, b, BOTH, a, c];
        assert_eq!((after(&inside), after(&spread)), (spread.to_vec(), inside.to_vec()));
    }

    #[test]
    fn nothing_else_is_a_step() {
        let [a, b, c] = [0x02000000, 0x02000001, 0x02000002];
        let none: [&[u32]; 6] = [
            &[a],
            &[PLUS, EITHER, b, c],
            &[EITHER, PLUS, b, PLUS, c],
            &[EITHER, a, TOGETHER, b, c],
            &[EITHER, TOGETHER, a, b, TOGETHER, c, a],
            &[EITHER, TOGETHER, a, b, APART, a, c],
        ];
        for words in none {
            assert_eq!(steps(&read(words)), [], "{words:08x?}");
        }
    }

    #[test]
    fn other_forms_are_other_ones_and_can_be_read() {
        let mut random = Random::new(19);
        for _ in 0..2000 {
            let style = Style { users: 3, roles: 3, lean: 70 };
            let most = random.between(5, MOST_WORDS);
            let term = term(&mut random, style, most);
            assert!(term.length() <= most && !steps(&term).is_empty());
            let count = random.between(1, 10);
            let Form { term: other, made } = other_form(&mut random, &term, count);
            assert!(other != term && !made.is_empty() && other.length() <= 2 * MOST_WORDS);
            let fits = other.length() <= MOST_WORDS;
            let read = read_term(3, 3, &other.words());
            assert_eq!(read, if fits { Ok(other) } else { Err(1) });
        }
    }
}
