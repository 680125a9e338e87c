//! Policies whose texts are to be written, with outputs of every length of interest, counted in bytes.

use super::edges::longest;
use crate::generate::calls::{edges_around, policy_input, PolicyInput};
use crate::generate::Random;
use crate::policy::{ones, read_term, Term, MOST_ROLES, MOST_USERS};
use crate::text::{text_of, OPENING};

/// The length of the text of these words; where they have none, one that would do for a short text.
fn text_length(users: usize, roles: usize, words: &[u32]) -> usize {
    read_term(users, roles, words).map_or(OPENING.len() + 3, |term| text_of(&term).len())
}

/// A random policy, of which about half are accepted.
pub fn writing_input(random: &mut Random) -> PolicyInput {
    let PolicyInput { users, roles, words, .. } = policy_input(random);
    let length = text_length(users, roles, &words);
    let output = match random.below(8) {
        0 => random.below(length),
        1 => length - 1,
        2 => length,
        3 => length + random.between(1, 4),
        _ => 1024,
    };
    PolicyInput { users, roles, words, output }
}

/// The policies of all edge cases, every term of one word but for most sets, and the longest policy.
pub fn writing_edges() -> Vec<(String, PolicyInput)> {
    let mut found = edges_around(text_length);
    let leaves = (0..MOST_ROLES).map(Term::Role).chain(sets());
    for term in leaves.chain([Term::Everyone, longest()]) {
        let (words, text) = (term.words(), text_of(&term));
        for output in [text.len() - 1, text.len(), text.len() + 1] {
            let name = format!("{}, output of {output}", text.escape_ascii());
            let (users, roles, words) = (MOST_USERS, MOST_ROLES, words.clone());
            found.push((name, PolicyInput { users, roles, words, output }));
        }
    }
    found
}

/// The sets of one or two users, and those of all but these.
fn sets() -> impl Iterator<Item = Term> {
    let pairs = (0..MOST_USERS).flat_map(|one| (one..MOST_USERS).map(move |two| (one, two)));
    pairs.flat_map(|(one, two)| {
        let mask = 1u16 << one | 1 << two;
        [mask, !mask].map(|mask| Term::Set(ones(mask)))
    })
}

#[cfg(test)]
mod tests {
    use super::*;
    use crate::text::write_text;
    use std::collections::BTreeSet;

    #[test]
    fn edges_and_random_policies_bring_about_every_number() {
        let mut random = Random::new(41);
        let edges: Vec<PolicyInput> = writing_edges().into_iter().map(|(_, input)| input).collect();
        let made = (0..1000).map(|_| writing_input(&mut random)).collect();
        for inputs in [edges, made] {
            let mut seen = BTreeSet::new();
            for PolicyInput { users, roles, words, output } in inputs {
                let answer = write_text(users, roles, &words, &mut vec![0; output]);
                seen.insert(answer.map_or_else(|refused| refused.code, |_| 0));
            }
            assert_eq!(seen, BTreeSet::from([0, 1, 2, 3, 4, 5, 13]));
        }
    }
}
