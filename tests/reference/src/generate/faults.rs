//! Policies with faults (02, "Point at the bad word"): edges that are named by number and place, and
//! random ones whose number and place are known from how they are made. Many have further faults,
//! which must not count.

use super::terms::{self, Style};
use super::Random;
use crate::code::{self, Code};
use crate::policy::{Operator, Term, MOST_WORDS};
use crate::words::{ALL, APART, BOTH, EITHER, NOT, PLUS, TOGETHER};

/// Words that are bad with three users and three roles: of no kind, with a bit that is to be zero,
/// an undeclared role, an undeclared user, and the empty set.
const BAD: [u32; 5] = [0x0a000000, 0x08010000, 0x02000003, 0x03000008, 0x03000000];

/// A policy with a name that begins with the number and the place it is to get: `2 at 5, ..`.
pub type NamedPolicy = (String, Vec<u32>);

/// All edges, for three users and three roles; the names are all different.
pub fn edges() -> Vec<NamedPolicy> {
    [wrong_counts(), bad_words(), wrong_ends(), misplaced(), several_numbers()].concat()
}

/// Together and everyone in turn, and these words at the end: one term if they are one.
fn ending_in(last: &[u32], count: usize) -> Vec<u32> {
    [[TOGETHER, ALL].repeat((count - last.len()) / 2), last.to_vec()].concat()
}

/// Policies with names.
fn named(policies: &[(&str, &[u32])]) -> Vec<NamedPolicy> {
    policies.iter().map(|(name, words)| (name.to_string(), words.to_vec())).collect()
}

/// No word, and more than 31.
fn wrong_counts() -> Vec<NamedPolicy> {
    named(&[
        ("1 at 0, no word", &[]),
        ("1 at 0, 32 words", &[&[NOT][..], &ending_in(&[ALL], 31)].concat()),
        ("1 at 0, 32 bad words", &[BAD[0]; 32]),
        ("1 at 0, 33 words, the last one bad", &ending_in(&[BAD[4]], 33)),
        ("1 at 0, 32 words that run out", &[TOGETHER; 32]),
        ("1 at 0, 300 words", &[ALL; 300]),
    ])
}

/// Bad words: one at the first, a middle and the last place, and several.
fn bad_words() -> Vec<NamedPolicy> {
    let mut found = Vec::new();
    for (count, places) in [(1, &[0][..]), (7, &[0, 3, 6]), (31, &[0, 15, 30])] {
        for place in places {
            for bad in BAD {
                let mut words = ending_in(&[ALL], count);
                words[*place] = bad;
                found.push((format!("2 at {place}, {bad:08x} among {count} words"), words));
            }
        }
    }
    // kinds that are none of 01's, with as many terms behind them as a word may have sides
    for kind in [0, 10, 255] {
        for sides in 0..=2 {
            let words = [vec![kind << 24], vec![ALL; sides]].concat();
            found.push((format!("2 at 0, kind {kind} with {sides} terms behind it"), words));
        }
    }
    let longest = |from: usize| [vec![ALL; from], vec![BAD[2]; MOST_WORDS - from]].concat();
    found.extend(named(&[
        ("2 at 0, first and last word", &[BAD[1], ALL, BAD[2]]),
        ("2 at 1, two words", &[TOGETHER, BAD[4], BAD[2], ALL]),
        ("2 at 2, two words with a good one between", &[BOTH, ALL, BAD[3], ALL, BAD[0]]),
        ("2 at 0, 31 bad words", &longest(0)),
        ("2 at 16, 15 bad words of 31", &longest(16)),
        ("2 at 29, 2 bad words of 31", &longest(29)),
    ]));
    found
}

/// Words left over after the first term, and words that run out.
fn wrong_ends() -> Vec<NamedPolicy> {
    let longest = ending_in(&[ALL], 29);
    named(&[
        ("3 at 1, second of 2 words", &[ALL, ALL]),
        ("3 at 1, second of 31 words", &[ALL; 31]),
        ("3 at 1, an operator left over", &[ALL, TOGETHER]),
        ("3 at 1, left over words that run out", &[ALL, NOT, APART, ALL]),
        ("3 at 3, a term left over", &[TOGETHER, ALL, ALL, NOT, ALL]),
        ("3 at 2, the last of 3 words", &[NOT, ALL, ALL]),
        ("3 at 4, two terms left over", &[EITHER, ALL, NOT, ALL, ALL, PLUS, ALL]),
        ("3 at 29, two of 31 words", &[&longest[..], &[NOT, ALL]].concat()),
        ("3 at 30, the last of 31 words", &[&[NOT], &longest[..], &[ALL]].concat()),
        ("3 at 1, a not alone", &[NOT]),
        ("3 at 1, an operator alone", &[TOGETHER]),
        ("3 at 2, no right side", &[APART, ALL]),
        ("3 at 3, a right side that runs out", &[TOGETHER, ALL, NOT]),
        ("3 at 4, a left side, no right one", &[BOTH, TOGETHER, ALL, ALL]),
        ("3 at 30, 30 words run out", &ending_in(&[TOGETHER, ALL], 30)),
        ("3 at 31, 31 words run out", &ending_in(&[NOT], 31)),
        ("3 at 31, 31 operators", &[APART; 31]),
    ])
}

/// Not and plus over terms that are no unit terms, beside some that stand right.
fn misplaced() -> Vec<NamedPolicy> {
    named(&[
        ("4 at 0, not over plus", &[NOT, PLUS, ALL]),
        ("4 at 0, plus over plus", &[PLUS, PLUS, ALL]),
        ("4 at 0, not over not over plus", &[NOT, NOT, PLUS, ALL]),
        ("4 at 0, plus over both with not over apart", &[PLUS, BOTH, ALL, NOT, APART, ALL, ALL]),
        ("4 at 0, not over a plus at the end", &[NOT, EITHER, ALL, NOT, PLUS, ALL]),
        ("4 at 1, in both sides", &[APART, PLUS, PLUS, ALL, NOT, PLUS, ALL]),
        ("4 at 2, in the right side", &[TOGETHER, ALL, NOT, PLUS, ALL]),
        ("4 at 3, after a not that stands right", &[EITHER, NOT, ALL, NOT, TOGETHER, ALL, ALL]),
        ("4 at 4, after a plus over not", &[APART, PLUS, NOT, ALL, PLUS, PLUS, ALL]),
        ("4 at 3, in the left side of the right side", &[BOTH, ALL, BOTH, PLUS, PLUS, ALL, ALL]),
        ("4 at 0, 31 words", &[&[NOT, NOT], &ending_in(&[ALL], 29)[..]].concat()),
        ("4 at 14, 31 words", &ending_in(&[&[PLUS, PLUS], &[NOT; 14][..], &[ALL]].concat(), 31)),
        ("4 at 28, 31 words", &ending_in(&[NOT, PLUS, ALL], 31)),
    ])
}

/// Faults of several numbers at once: the first number's place counts.
fn several_numbers() -> Vec<NamedPolicy> {
    let longest = ending_in(&[PLUS, PLUS, BAD[3]], 31);
    named(&[
        ("2 at 2, behind a term", &[ALL, ALL, BAD[0]]),
        ("2 at 1, and the words run out", &[TOGETHER, BAD[2]]),
        ("2 at 2, under a plus under a not", &[NOT, PLUS, BAD[4]]),
        ("2 at 0, ahead of a plus under a plus", &[BAD[1], PLUS, PLUS, ALL]),
        ("2 at 3, behind a plus under a not", &[NOT, PLUS, ALL, BAD[0]]),
        ("2 at 2, under a plus under a not, a word left over", &[NOT, PLUS, BAD[3], ALL]),
        ("2 at 3, under a plus under a not, and the words run out", &[APART, NOT, PLUS, BAD[2]]),
        ("2 at 30, under a plus under a plus, 31 words", &longest),
        ("3 at 3, behind a plus under a not", &[NOT, PLUS, ALL, ALL]),
        ("3 at 3, between two nots over plus", &[NOT, PLUS, ALL, NOT, PLUS, ALL]),
        ("3 at 4, and a plus under a not", &[TOGETHER, NOT, PLUS, ALL]),
        ("3 at 31, and a plus under a not", &ending_in(&[BOTH, NOT, PLUS, ALL, NOT], 31)),
    ])
}

/// A policy that is refused, with the number and the place that it was made for.
#[derive(Clone, Debug, PartialEq, Eq)]
pub struct Faulty {
    /// The words.
    pub words: Vec<u32>,
    /// The number.
    pub code: Code,
    /// The place.
    pub place: usize,
}

/// A random policy with a fault, more often than not with others too.
pub fn random_policy(random: &mut Random, style: Style) -> Faulty {
    match random.below(20) {
        0 => random_count(random, style),
        1..=5 => random_bad_words(random, style),
        6..=9 => random_left_over(random, style),
        10..=13 => random_run_out(random, style),
        14..=16 => random_misplaced(random, style),
        _ => random_misplaced_behind(random, style),
    }
}

/// A random word that is bad in this style.
fn bad_word(random: &mut Random, style: Style) -> u32 {
    let kind: u32 = random.pick(&[1, 4, 5, 6, 7, 8, 9]);
    let words = [
        random.pick(&[0u32, 10, 11, 0x81, 0xff]) << 24,
        kind << 24 | 1 << random.below(24),
        2 << 24 | random.between(style.roles, 0xffff) as u32,
        // Where sixteen users are declared this is the empty set.
        3 << 24 | (1 << style.users) & 0xffff,
        3 << 24,
    ];
    random.pick(&words)
}

/// The words of one random term, in some of which a not or plus is misplaced.
fn one_term(random: &mut Random, style: Style, count: usize) -> Vec<u32> {
    if count < 3 || random.percent(60) {
        return terms::term(random, style, count).words();
    }
    let inner = terms::unit(random, style, count - 2).words();
    [vec![random.pick(&[NOT, PLUS]), PLUS], inner].concat()
}

/// So many good words that need not be one term.
fn good_words(random: &mut Random, style: Style, count: usize) -> Vec<u32> {
    let mut words = Vec::new();
    while words.len() < count {
        let more = random.between(1, MOST_WORDS);
        words.extend(one_term(random, style, more));
    }
    words.truncate(count);
    words
}

/// No word, or too many, some of them bad.
fn random_count(random: &mut Random, style: Style) -> Faulty {
    let count = random.pick(&[0, 0, 32, 33, 63, 64, 256, 257]);
    let mut words = good_words(random, style, count);
    spoil(random, style, &mut words);
    Faulty { words, code: code::POLICY_LENGTH, place: 0 }
}

/// Turns about a fifth of the words into bad ones.
fn spoil(random: &mut Random, style: Style, words: &mut [u32]) {
    for word in words {
        if random.percent(20) {
            *word = bad_word(random, style);
        }
    }
}

/// A bad word, others behind it.
fn random_bad_words(random: &mut Random, style: Style) -> Faulty {
    let count = random.between(1, MOST_WORDS);
    let mut words = good_words(random, style, count);
    let place = random.below(count);
    words[place] = bad_word(random, style);
    spoil(random, style, &mut words[place + 1..]);
    Faulty { words, code: code::POLICY_WORD, place }
}

/// A term, and words left over.
fn random_left_over(random: &mut Random, style: Style) -> Faulty {
    let place = random.between(1, MOST_WORDS - 1);
    let mut words = one_term(random, style, place);
    let more = random.between(1, MOST_WORDS - place);
    words.extend(good_words(random, style, more));
    Faulty { words, code: code::NOT_ONE_TERM, place }
}

/// A term that is cut off.
fn random_run_out(random: &mut Random, style: Style) -> Faulty {
    let place = if random.percent(20) { MOST_WORDS } else { random.between(1, MOST_WORDS) };
    let missing = random.between(1, 9);
    let mut words = one_term(random, style, place + missing);
    words.truncate(place);
    Faulty { words, code: code::NOT_ONE_TERM, place }
}

/// Up to three nots and pluses put over terms inside that are no unit terms. In a well-formed term
/// none of these stands under a not or plus.
fn random_misplaced(random: &mut Random, style: Style) -> Faulty {
    let count = random.between(1, MOST_WORDS - 4);
    let term = terms::term(random, style, count);
    let term = if term.is_unit() { Term::plus(term) } else { term };
    let inside = term.prefix_order();
    let places: Vec<usize> = (0..inside.len()).filter(|place| !inside[*place].is_unit()).collect();
    let mut chosen: Vec<usize> = (0..random.between(1, 3)).map(|_| random.pick(&places)).collect();
    chosen.sort_unstable();
    let mut words = term.words();
    for place in chosen.iter().rev() {
        words.insert(*place, random.pick(&[NOT, PLUS]));
    }
    Faulty { words, code: code::NOT_OVER_UNIT, place: chosen[0] }
}

/// A well-formed left side, then a not or plus with a plus somewhere below it.
fn random_misplaced_behind(random: &mut Random, style: Style) -> Faulty {
    let left = random.between(1, MOST_WORDS - 4);
    let inner = random.between(1, MOST_WORDS - 3 - left);
    let mut right = terms::unit(random, style, inner).words();
    right.insert(random.below(inner), PLUS);
    let operator = random.pick(&Operator::ALL) as u32;
    let left_words = terms::term(random, style, left).words();
    let over = random.pick(&[NOT, PLUS]);
    let words = [vec![operator << 24], left_words, vec![over], right].concat();
    Faulty { words, code: code::NOT_OVER_UNIT, place: 1 + left }
}

#[cfg(test)]
mod tests {
    use super::*;
    use crate::place::place_of;
    use crate::policy::read_term;

    #[test]
    fn edges_come_out_as_named() {
        for (name, words) in edges() {
            let code = read_term(3, 3, &words).expect_err(&name);
            let place = place_of(code, 3, 3, &words).expect(&name);
            assert!(name.starts_with(&format!("{code} at {place}, ")), "{code} at {place}: {name}");
        }
    }

    #[test]
    fn random_faults_come_out_as_made() {
        let mut random = Random::new(17);
        for turn in 0..4000 {
            let style = Style { users: 1 + turn % 16, roles: 1 + turn / 16 % 16, lean: 50 };
            let Faulty { words, code, place } = random_policy(&mut random, style);
            let (users, roles) = (style.users, style.roles);
            assert_eq!(read_term(users, roles, &words), Err(code), "{words:08x?}");
            assert_eq!(place_of(code, users, roles, &words), Some(place), "{words:08x?}");
        }
    }
}
