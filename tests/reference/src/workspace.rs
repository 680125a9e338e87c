//! What the workspace holds (01, "The work room"), and which calls ask for it (02, E6).

use crate::code::{self, Code};
use crate::event::is_of_close_kind;
use crate::policy::Term;
use crate::search::{Acted, Question, Search};

/// The words of the workspace that a call is lent and may write.
pub const WORDS: usize = 8192;
/// Where the facts about "possible" begin.
pub const POSSIBLE: usize = 4096;

/// What every call that fills a workspace looks at first.
///
/// # Errors
/// 12 if it has fewer than 8,192 words.
pub fn check(workspace: &[u32]) -> Result<(), Code> {
    (workspace.len() >= WORDS).then_some(()).ok_or(code::WORKSPACE_SHORT)
}

/// What an event with this word looks at first; for words of kind 4 the workspace plays no part.
///
/// # Errors
/// 12 if the word is of another kind and the workspace has fewer than 8,192 words.
pub fn check_for(word: u32, workspace: &[u32]) -> Result<(), Code> {
    if is_of_close_kind(word) {
        Ok(())
    } else {
        check(workspace)
    }
}

/// The 8,192 words for these actions: bit i of word s says whether the set with mask s satisfies
/// the term at word i, and bit i of word 4,096 + s the same for possible; all else is zero.
///
/// # Panics
/// If there are more than twelve actions.
pub fn facts<A: Acted>(search: &mut Search<A>, actions: &[A]) -> Vec<u32> {
    assert!(actions.len() <= 12, "a workspace speaks of at most twelve actions");
    let mut words = vec![0; WORDS];
    for set in 0..1usize << actions.len() {
        let members = members(actions, set);
        words[set] = word(search, Question::Satisfied, &members);
        words[POSSIBLE + set] = word(search, Question::Possible, &members);
    }
    words
}

/// The words that a workspace must hold for a policy and a list of actions.
pub fn expected<A: Acted>(policy: &Term, actions: &[A]) -> Vec<u32> {
    facts(&mut Search::new(policy), actions)
}

/// Writes the facts about these actions into a workspace; words from 8,192 on are left.
pub fn fill<A: Acted>(search: &mut Search<A>, actions: &[A], workspace: &mut [u32]) {
    workspace[..WORDS].copy_from_slice(&facts(search, actions));
}

/// The actions of the set with this mask, in the order of their places.
fn members<A: Acted>(actions: &[A], set: usize) -> Vec<A> {
    let places = (0..actions.len()).filter(|place| set >> place & 1 == 1);
    places.map(|place| actions[place].clone()).collect()
}

/// One word: for each term of the policy whether the answer is yes.
fn word<A: Acted>(search: &mut Search<A>, question: Question, actions: &[A]) -> u32 {
    let terms = 0..search.length();
    terms.filter(|at| search.ask(question, *at, actions)).map(|at| 1u32 << at).sum()
}

#[cfg(test)]
mod tests {
    use super::*;
    use crate::policy::Operator;
    use crate::raw::RawAction;

    /// Together of role 0 and role 1, and two users: one with both roles, one with role 0.
    fn example() -> (Term, Vec<RawAction>) {
        let term = Term::join(Operator::Together, Term::Role(0), Term::Role(1));
        (term, vec![RawAction { user: 0, met: 0b110 }, RawAction { user: 1, met: 0b010 }])
    }

    #[test]
    fn words_are_as_counted_by_hand() {
        let (term, actions) = example();
        let words = expected(&term, &actions);
        assert_eq!(words[..4], [0, 0b110, 0b010, 0b001]);
        assert_eq!(words[POSSIBLE..POSSIBLE + 4], [0b111, 0b111, 0b011, 0b001]);
        let rest = words[4..POSSIBLE].iter().chain(&words[POSSIBLE + 4..]);
        assert!(rest.into_iter().all(|word| *word == 0));
        assert_eq!(words.len(), WORDS);
    }

    #[test]
    fn no_action_is_possible_for_every_term() {
        let (term, _) = example();
        let words = expected::<RawAction>(&term, &[]);
        assert_eq!(words[POSSIBLE], 0b111);
        assert_eq!(words.iter().filter(|word| **word != 0).count(), 1);
    }

    #[test]
    fn words_past_the_end_are_left() {
        let (term, actions) = example();
        let mut workspace = vec![5; WORDS + 3];
        fill(&mut Search::new(&term), &actions, &mut workspace);
        assert_eq!(workspace[WORDS..], [5; 3]);
        assert_eq!(workspace[..WORDS], expected(&term, &actions));
    }

    #[test]
    fn the_order_of_the_actions_shows() {
        let (term, actions) = example();
        let turned: Vec<RawAction> = actions.iter().rev().copied().collect();
        assert_eq!(expected(&term, &turned)[..4], [0, 0b010, 0b110, 0b001]);
    }

    #[test]
    fn twelve_actions_of_a_long_policy() {
        let plus = |role| Term::plus(Term::Role(role));
        let mut term = plus(0);
        for role in 1..10 {
            let operator = if role % 2 == 0 { Operator::Together } else { Operator::Apart };
            term = Term::join(operator, term, plus(role % 3));
        }
        let met = |place: u32| 0x5555_5555u32.rotate_left(place) & term.unit_mask();
        let action = |place: u32| RawAction { user: place as usize % 7, met: met(place) };
        let actions: Vec<RawAction> = (0..12).map(action).collect();
        assert_eq!(expected(&term, &actions).len(), WORDS);
    }
}
