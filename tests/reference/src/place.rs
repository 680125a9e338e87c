//! The place of a policy's fault (02, "Point at the bad word"), counted from 0.

use crate::code::{self, Code};
use crate::policy::{build, word_fits};

/// The place of the fault for which a policy gets this number, whichever call answers it. Numbers but
/// 1 to 4 have none.
pub fn place_of(code: Code, users: usize, roles: usize, words: &[u32]) -> Option<usize> {
    match code {
        code::POLICY_LENGTH => Some(0),
        code::POLICY_WORD => words.iter().position(|word| !word_fits(users, roles, *word)),
        code::NOT_ONE_TERM => Some(end_of_first_term(words)),
        code::NOT_OVER_UNIT => build(words)?.first_misplaced(),
        _ => None,
    }
}

/// Where the first term ends: at most one beginning of the words is one term. If none is, the words
/// run out at their end.
fn end_of_first_term(words: &[u32]) -> usize {
    let whole = |length: &usize| build(&words[..*length]).is_some();
    (1..words.len()).find(whole).unwrap_or(words.len())
}

#[cfg(test)]
mod tests {
    use super::*;
    use crate::policy::read_term;
    use crate::words::{ALL, EITHER, NOT, PLUS, TOGETHER};

    /// The number and the place for two users and three roles.
    fn fault(words: &[u32]) -> (Code, Option<usize>) {
        let code = read_term(2, 3, words).err().unwrap_or(code::ACCEPTED);
        (code, place_of(code, 2, 3, words))
    }

    #[test]
    fn a_wrong_count_is_at_0() {
        assert_eq!(fault(&[]), (1, Some(0)));
        assert_eq!(fault(&[ALL; 32]), (1, Some(0)));
        assert_eq!(fault(&[0; 1000]), (1, Some(0)));
    }

    #[test]
    fn the_first_bad_word_counts() {
        for bad in [0, 0x0a000000, 0x01010000, 0x04000001, 0x02000003, 0x03000004, 0x03000000] {
            assert_eq!(fault(&[bad]), (2, Some(0)), "{bad:08x}");
            assert_eq!(fault(&[TOGETHER, bad, ALL]), (2, Some(1)), "{bad:08x}");
            assert_eq!(fault(&[TOGETHER, ALL, bad]), (2, Some(2)), "{bad:08x}");
            assert_eq!(fault(&[NOT, PLUS, ALL, bad, bad]), (2, Some(3)), "{bad:08x}");
        }
    }

    #[test]
    fn the_first_word_left_over_counts() {
        assert_eq!(fault(&[ALL, ALL]), (3, Some(1)));
        assert_eq!(fault(&[TOGETHER, ALL, NOT, ALL, TOGETHER, ALL]), (3, Some(4)));
        assert_eq!(fault(&[NOT, PLUS, ALL, ALL]), (3, Some(3)));
    }

    #[test]
    fn where_words_run_out_their_count_counts() {
        assert_eq!(fault(&[NOT]), (3, Some(1)));
        assert_eq!(fault(&[TOGETHER, ALL]), (3, Some(2)));
        assert_eq!(fault(&[EITHER, NOT, PLUS, ALL]), (3, Some(4)));
        assert_eq!(fault(&[NOT; 31]), (3, Some(31)));
    }

    #[test]
    fn the_first_misplaced_not_or_plus_counts() {
        assert_eq!(fault(&[PLUS, TOGETHER, ALL, ALL]), (4, Some(0)));
        assert_eq!(fault(&[NOT, NOT, PLUS, ALL]), (4, Some(0)));
        assert_eq!(fault(&[EITHER, NOT, ALL, NOT, EITHER, ALL, PLUS, ALL]), (4, Some(3)));
        assert_eq!(fault(&[EITHER, PLUS, PLUS, ALL, PLUS, PLUS, ALL]), (4, Some(1)));
    }

    #[test]
    fn other_numbers_have_no_place() {
        for code in [0].into_iter().chain(5..=21) {
            assert_eq!(place_of(code, 2, 3, &[NOT, PLUS, 0]), None);
        }
    }
}
