//! Random terms and equal forms.

use super::Random;
use crate::policy::{ones, Operator, Term};

/// What random terms are made of.
#[derive(Clone, Copy, Debug)]
pub struct Style {
    /// The number of users.
    pub users: usize,
    /// The number of roles.
    pub roles: usize,
    /// How many of a hundred operators are together or apart.
    pub lean: usize,
}

/// A random term of exactly this many words, at least one.
pub fn term(random: &mut Random, style: Style, words: usize) -> Term {
    let joined = words >= 3 && random.percent(85);
    match words {
        1 => leaf(random, style),
        _ if joined => {
            let operator = operator(random, style);
            let left = random.between(1, words - 2);
            let side = |random: &mut Random, words| term(random, style, words);
            Term::join(operator, side(random, left), side(random, words - 1 - left))
        }
        _ => {
            let inner = unit(random, style, words - 1);
            if random.percent(30) {
                Term::not(inner)
            } else {
                Term::plus(inner)
            }
        }
    }
}

/// A random unit term of exactly this many words.
pub fn unit(random: &mut Random, style: Style, words: usize) -> Term {
    let joined = words >= 3 && random.percent(80);
    match words {
        1 => leaf(random, style),
        _ if joined => {
            let operator = random.pick(&[Operator::Either, Operator::Both]);
            let left = random.between(1, words - 2);
            let first = unit(random, style, left);
            Term::join(operator, first, unit(random, style, words - 1 - left))
        }
        _ => Term::not(unit(random, style, words - 1)),
    }
}

/// A random operator of the style.
fn operator(random: &mut Random, style: Style) -> Operator {
    if random.percent(style.lean) {
        random.pick(&[Operator::Together, Operator::Apart])
    } else {
        random.pick(&[Operator::Either, Operator::Both])
    }
}

/// A random term of one word.
fn leaf(random: &mut Random, style: Style) -> Term {
    match random.below(10) {
        0..=2 => Term::Everyone,
        3..=6 => Term::Role(random.below(style.roles)),
        _ => {
            let all = (1u32 << style.users) - 1;
            let mask = random.word() & all;
            let mask = if mask == 0 { 1 << random.below(style.users) } else { mask };
            Term::Set(ones(mask as u16))
        }
    }
}

/// The term inside that begins at this word.
pub(super) fn at(term: &mut Term, word: usize) -> &mut Term {
    if word == 0 {
        return term;
    }
    match term {
        Term::Not(inner) | Term::Plus(inner) => at(inner, word - 1),
        Term::Join(_, left, right) => {
            let first = left.length();
            if word <= first {
                at(left, word - 1)
            } else {
                at(right, word - 1 - first)
            }
        }
        _ => panic!("no term begins there"),
    }
}

/// Exchanges the sides: operator, A, B becomes operator, B, A.
fn exchange(term: &mut Term) {
    if let Term::Join(_, left, right) = term {
        std::mem::swap(left, right);
    }
}

/// Regroups to the right: operator, operator, A, B, C becomes operator, A, operator, B, C.
fn regroup_right(term: &mut Term) {
    if let Term::Join(operator, left, c) = term.clone() {
        if let Term::Join(inner, a, b) = *left {
            if inner == operator {
                *term = Term::join(operator, *a, Term::Join(operator, b, c));
            }
        }
    }
}

/// Regroups to the left: operator, A, operator, B, C becomes operator, operator, A, B, C.
fn regroup_left(term: &mut Term) {
    if let Term::Join(operator, a, right) = term.clone() {
        if let Term::Join(inner, b, c) = *right {
            if inner == operator {
                *term = Term::join(operator, Term::Join(operator, a, b), *c);
            }
        }
    }
}

/// Exchanges or regroups once, at a random place; where that is no place for it, nothing happens.
pub(super) fn turn(random: &mut Random, term: &mut Term) {
    let word = random.below(term.length());
    let step = random.pick(&[exchange, regroup_right, regroup_left]);
    step(at(term, word));
}

/// The term after so many random exchanges and regroupings anywhere in it.
pub fn equal_form(random: &mut Random, term: &Term, steps: usize) -> Term {
    let mut equal = term.clone();
    (0..steps).for_each(|_| turn(random, &mut equal));
    equal
}

/// A random term of this many operands that many lists of actions fit: each operand is one word or
/// a plus over one word, most operators are together or apart.
pub fn rich(random: &mut Random, style: Style, operands: usize) -> Term {
    joined(random, style, operands, leaf)
}

/// The most operands with which a denying term surely has no more than 31 words: an operand has up to
/// five.
pub const MOST_DENIALS: usize = 5;

/// As rich, but with a not in most operands.
pub fn denying(random: &mut Random, style: Style, operands: usize) -> Term {
    joined(random, style, operands, denial)
}

/// A not over one word, over another not or over two words joined, at times one word without a not.
fn denial(random: &mut Random, style: Style) -> Term {
    match random.below(8) {
        0 => leaf(random, style),
        1 => Term::not(unit(random, style, 2)),
        2 => Term::not(unit(random, style, 3)),
        _ => Term::not(leaf(random, style)),
    }
}

/// A random term of this many operands, each such a unit term or a plus over one.
fn joined(
    random: &mut Random,
    style: Style,
    operands: usize,
    operand: fn(&mut Random, Style) -> Term,
) -> Term {
    if operands == 1 {
        let unit = operand(random, style);
        return if random.percent(40) { Term::plus(unit) } else { unit };
    }
    let (together, apart) = (Operator::Together, Operator::Apart);
    let operators = [together, together, together, apart, apart, Operator::Either, Operator::Both];
    let operator = random.pick(&operators);
    let left = random.between(1, operands - 1);
    let first = joined(random, style, left, operand);
    Term::join(operator, first, joined(random, style, operands - left, operand))
}

/// A random chain of one operator, of exactly this many operands of one word each.
pub fn chain(random: &mut Random, style: Style, operator: Operator, operands: usize) -> Term {
    let mut chain = leaf(random, style);
    for _ in 1..operands {
        chain = Term::join(operator, chain, leaf(random, style));
    }
    equal_form(random, &chain, 2 * operands)
}
