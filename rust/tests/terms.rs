//! Policies put together as terms: their words, and that the library accepts exactly those.

mod common;

use common::{number, POLICY_F};
use oskhrein::{Monitor, Refusal, Term, MAX_WORDS};

type Made = Result<Term, Refusal>;

/// Numbers that look random.
struct Random(u32);

impl Random {
    fn below(&mut self, bound: u32) -> u32 {
        self.0 = self.0.wrapping_mul(1664525).wrapping_add(1013904223);
        (self.0 >> 8) % bound
    }
}

/// A random term of at most this depth, with the words that it should have; where a part is
/// refused, the words go on as if it were not.
fn random(random: &mut Random, depth: u32) -> (Made, Vec<u32>) {
    let kind = if depth == 0 { 1 + random.below(3) } else { 1 + random.below(9) };
    let mut words = vec![kind << 24];
    let mut side = |words: &mut Vec<u32>| {
        let (side, more) = crate::random(random, depth - 1);
        words.extend(more);
        side
    };
    let made = match kind {
        1 => Ok(Term::everyone()),
        2 => {
            let role = random.below(18) as u8;
            words[0] |= u32::from(role);
            Term::role(role)
        }
        3 => {
            let users: Vec<u8> = (0..random.below(3)).map(|_| random.below(16) as u8).collect();
            users.iter().for_each(|user| words[0] |= 1 << user);
            Term::set(&users)
        }
        4 => side(&mut words).and_then(Term::not),
        5 => side(&mut words).and_then(Term::plus),
        _ => {
            let operators = [Term::either, Term::both, Term::together, Term::apart];
            let (left, right) = (side(&mut words), side(&mut words));
            left.and_then(|left| right.and_then(|right| operators[kind as usize - 6](left, right)))
        }
    };
    (made, words)
}

#[test]
fn policy_f() -> Result<(), Refusal> {
    let (accountant, manager) = (Term::role(0)?, Term::role(2)?);
    let others = Term::either(manager, Term::apart(accountant, accountant)?)?;
    let duties = Term::apart(accountant, others)?;
    let policy = Term::together(duties, Term::plus(Term::everyone())?)?;
    assert_eq!(policy.words(), POLICY_F);
    Ok(())
}

#[test]
fn words_of_each_kind() -> Result<(), Refusal> {
    let (all, plus) = (Term::everyone(), Term::plus(Term::everyone())?);
    assert_eq!(all.words(), [0x01000000]);
    assert_eq!(Term::role(15)?.words(), [0x0200000f]);
    assert_eq!(Term::set(&[0, 15, 0])?.words(), [0x03008001]);
    assert_eq!(Term::not(all)?.words(), [0x04000000, 0x01000000]);
    assert_eq!(plus.words(), [0x05000000, 0x01000000]);
    assert_eq!(Term::either(all, plus)?.words(), [0x06000000, 0x01000000, 0x05000000, 0x01000000]);
    assert_eq!(Term::both(all, all)?.words(), [0x07000000, 0x01000000, 0x01000000]);
    assert_eq!(Term::together(all, all)?.words(), [0x08000000, 0x01000000, 0x01000000]);
    assert_eq!(Term::apart(all, all)?.words(), [0x09000000, 0x01000000, 0x01000000]);
    Ok(())
}

#[test]
fn numbers_and_sets_are_checked() {
    let refused = Err(Refusal::Word { place: 0 });
    assert_eq!([Term::role(16), Term::role(255)], [refused; 2]);
    assert_eq!([&[][..], &[3, 16], &[255]].map(Term::set), [refused; 3]);
}

#[test]
fn more_than_31_words_are_refused() -> Result<(), Refusal> {
    let mut longest = Term::everyone();
    while longest.words().len() < MAX_WORDS {
        longest = Term::either(Term::everyone(), longest)?;
    }
    assert_eq!(number(Monitor::open(1, 1, longest.words(), &[1])), 0);
    let operators = [Term::either, Term::both, Term::together, Term::apart];
    for operator in operators {
        assert_eq!(operator(longest, Term::everyone()), Err(Refusal::WordCount));
        assert_eq!(operator(Term::everyone(), longest), Err(Refusal::WordCount));
        assert_eq!(operator(longest, longest), Err(Refusal::WordCount));
    }
    assert_eq!(Term::not(longest), Err(Refusal::WordCount));
    assert_eq!(Term::plus(longest), Err(Refusal::WordCount));
    Ok(())
}

#[test]
fn the_library_accepts_exactly_what_can_be_made() {
    let mut numbers = Random(1);
    let mut made = [0; 2];
    for turn in 0..20_000 {
        let (term, words) = random(&mut numbers, turn % 5);
        let opened = Monitor::open(16, 16, &words, &[1; 16]);
        assert_eq!(term.is_ok(), opened.is_ok(), "{words:08x?}");
        if let Ok(term) = term {
            assert_eq!(term.words(), words);
        }
        made[usize::from(term.is_ok())] += 1;
    }
    assert!(made.iter().all(|count| *count > 2000), "{made:?}");
}
