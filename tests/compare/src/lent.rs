//! What is lent to a call.

use std::hint::black_box;

use reference::generate::calls::marked;

/// The words behind the lent ones that belong to nobody and must stay as they were.
const GUARD: usize = 16;

/// A workspace (01: work room) or an output. Its words, or bytes, differ at first, so that each one
/// written is seen; guard words behind them show a write past the end.
#[derive(Clone, Debug, PartialEq, Eq)]
pub struct Lent<T = u32> {
    words: Vec<T>,
    length: usize,
}

impl Lent {
    /// So many words, marked.
    pub fn new(length: usize) -> Lent {
        Lent { words: marked(length + GUARD), length }
    }
}

impl Lent<u8> {
    /// So many bytes, marked; 256 in a row all differ.
    pub fn bytes(length: usize) -> Lent<u8> {
        let words = marked(length + GUARD).into_iter().map(|word| 0xa5 ^ word as u8).collect();
        Lent { words, length }
    }
}

impl<T: Copy + PartialEq> Lent<T> {
    /// The words that are lent.
    pub fn words(&mut self) -> &mut [T] {
        &mut self.words[..self.length]
    }

    /// The place, the word here and the word there where two differ first.
    pub fn first_difference(&self, other: &Lent<T>) -> Option<(usize, T, T)> {
        let pairs = self.words.iter().zip(&other.words).enumerate();
        let mut different = pairs.filter(|(_, (own, theirs))| own != theirs);
        different.next().map(|(place, (own, theirs))| (place, *own, *theirs))
    }
}

/// What a byte for a place holds before a call, each in turn.
const MARKS: [u8; 5] = [0xa5, 0, 255, 31, 1];

/// What a count of words or bytes written holds before a call, each in turn.
const COUNT_MARKS: [usize; 4] = [0xa5a5_a5a5_a5a5_a5a5, 0, usize::MAX, 1];

/// A number that a call may leave, between two that belong to nobody.
#[derive(Clone, Debug)]
pub struct LentNumber<T> {
    numbers: [T; 3],
    mark: T,
}

/// A byte for the place of a policy's fault.
pub type LentByte = LentNumber<u8>;

/// A count of words or bytes written.
pub type LentCount = LentNumber<usize>;

impl LentByte {
    /// The byte for the call with this number.
    pub fn new(number: usize) -> LentByte {
        LentNumber::marked(MARKS[number % MARKS.len()])
    }

    /// The byte that is lent.
    pub fn byte(&mut self) -> &mut u8 {
        &mut self.numbers[1]
    }

    /// What it was to hold, and what it and its neighbours hold.
    pub fn against(&self, place: Option<usize>) -> String {
        let LentNumber { numbers, mark } = self;
        format!("  expected place {place:?} in a byte that held {mark}, got {numbers:?}")
    }
}

impl LentCount {
    /// The count for the call with this number.
    pub fn new(number: usize) -> LentCount {
        LentNumber::marked(COUNT_MARKS[number % COUNT_MARKS.len()])
    }

    /// The count that is lent.
    pub fn count(&mut self) -> &mut usize {
        &mut self.numbers[1]
    }

    /// What it was to hold, and what it and its neighbours hold.
    pub fn against(&self, count: Option<usize>) -> String {
        let LentNumber { numbers, mark } = self;
        format!("  expected {count:?} written in a count that held {mark}, got {numbers:?}")
    }
}

impl<T: Copy + PartialEq + TryFrom<usize>> LentNumber<T> {
    /// Three numbers with this mark.
    fn marked(mark: T) -> LentNumber<T> {
        LentNumber { numbers: [mark; 3], mark }
    }

    /// Whether it holds this number; where there is none, what it held before.
    pub fn holds(&mut self, number: Option<usize>) -> bool {
        // All three are looked at anew, so that a write beside the lent one would be seen.
        black_box(&mut self.numbers);
        let expected = number.map_or(Some(self.mark), |number| T::try_from(number).ok());
        expected.is_some_and(|expected| self.numbers == [self.mark, expected, self.mark])
    }
}

#[cfg(test)]
mod tests {
    use super::*;

    #[test]
    fn a_write_past_the_end_is_a_difference() {
        let (mut one, other) = (Lent::new(4), Lent::new(4));
        assert_eq!((one.words().len(), one.first_difference(&other)), (4, None));
        one.words[4] = 0;
        assert_eq!(one.first_difference(&other), Some((4, 0, 0xa500_0004)));
        assert_ne!(one, other);
    }

    #[test]
    fn a_byte_holds_its_place_or_what_it_held() {
        for number in 0..MARKS.len() {
            let mut lent = LentByte::new(number);
            assert!(lent.holds(None) && !lent.holds(Some(7)));
            *lent.byte() = 7;
            assert!(!lent.holds(None) && lent.holds(Some(7)));
            lent.numbers[2] ^= 1;
            assert!(!lent.holds(Some(7)));
        }
    }
    #[test]
    fn a_count_holds_what_was_written_or_what_it_held() {
        for number in 0..COUNT_MARKS.len() {
            let mut lent = LentCount::new(number);
            assert!(lent.holds(None) && !lent.holds(Some(7)));
            *lent.count() = 7;
            assert!(!lent.holds(None) && lent.holds(Some(7)));
            lent.numbers[0] ^= 1;
            assert!(!lent.holds(Some(7)));
        }
    }

    #[test]
    fn a_byte_written_past_the_end_is_a_difference() {
        let (mut one, other) = (Lent::bytes(4), Lent::bytes(4));
        assert_eq!((one.words().len(), one.first_difference(&other)), (4, None));
        one.words[4] ^= 1;
        assert_eq!(one.first_difference(&other).map(|(place, _, _)| place), Some(4));
    }
}
