//! Satisfied and possible, by search on lists of actions (01, "Satisfied and possible").
//!
//! A list of actions is split over the two sides of together and apart by trying, action by
//! action, the left side and then the right side. What was tried is kept, for the list as a list.

use std::collections::HashMap;

use crate::policy::{Operator, Term};

/// What is asked of a list of actions and a term.
#[derive(Clone, Copy, Debug, PartialEq, Eq, Hash)]
pub enum Question {
    /// Do the actions satisfy the term (Definition 6)?
    Satisfied,
    /// May the actions be taken (Definition 7)?
    Possible,
}

/// An action as the search sees it.
pub trait Acted: Clone + PartialEq {
    /// The user who acted.
    fn user(&self) -> usize;
    /// Whether that user met, at the time, the unit term that begins at this word.
    fn meets(&self, word: usize, unit: &Term) -> bool;
}

/// How a term is judged: by its row in 01's table, with the words at which its sides begin.
#[derive(Clone, Copy, Debug)]
enum Row {
    Unit,
    Plus { inner: usize },
    Join { operator: Operator, left: usize, right: usize },
}

/// The term that begins at some word.
#[derive(Clone, Debug)]
struct Node {
    term: Term,
    row: Row,
    most: usize,
}

/// The question, the word where the term begins, and the sorted numbers of the actions.
type Tried = (Question, usize, Vec<u16>);

/// A search for one policy, with its memory of what was tried.
#[derive(Clone, Debug)]
pub struct Search<A> {
    nodes: Vec<Node>,
    known: Vec<A>,
    tried: HashMap<Tried, bool>,
}

impl<A: Acted> Search<A> {
    /// A search for this policy that has tried nothing yet.
    pub fn new(policy: &Term) -> Search<A> {
        let terms = policy.prefix_order();
        let nodes = (0..terms.len()).map(|word| node(word, terms[word])).collect();
        Search { nodes, known: Vec::new(), tried: HashMap::new() }
    }

    /// The number of words of the policy.
    pub fn length(&self) -> usize {
        self.nodes.len()
    }

    /// Answers the question for these actions and the term that begins at this word.
    pub fn ask(&mut self, question: Question, word: usize, actions: &[A]) -> bool {
        let mut list: Vec<u16> = actions.iter().map(|action| self.number(action)).collect();
        list.sort_unstable();
        self.holds(question, word, &list)
    }

    /// Whether these actions satisfy the whole policy.
    pub fn satisfied(&mut self, actions: &[A]) -> bool {
        self.ask(Question::Satisfied, 0, actions)
    }

    /// Whether these actions are possible for the whole policy.
    pub fn possible(&mut self, actions: &[A]) -> bool {
        self.ask(Question::Possible, 0, actions)
    }

    /// The number by which the search knows an action; equal actions have the same number.
    fn number(&mut self, action: &A) -> u16 {
        let place = self.known.iter().position(|known| known == action);
        let number = place.unwrap_or_else(|| {
            self.known.push(action.clone());
            self.known.len() - 1
        });
        u16::try_from(number).expect("fewer than 65,536 different actions")
    }

    /// Whether the user of an action met the unit term that begins at this word.
    fn met(&self, action: u16, word: usize) -> bool {
        self.known[usize::from(action)].meets(word, &self.nodes[word].term)
    }

    /// 01's table: the row of the term decides.
    fn holds(&mut self, question: Question, word: usize, list: &[u16]) -> bool {
        match self.nodes[word].row {
            Row::Unit => match list {
                [] => question == Question::Possible,
                [action] => self.met(*action, word),
                _ => false,
            },
            Row::Plus { inner } => {
                let enough = question == Question::Possible || !list.is_empty();
                enough && list.iter().all(|action| self.met(*action, inner))
            }
            Row::Join { operator: Operator::Either, left, right } => {
                self.holds(question, left, list) || self.holds(question, right, list)
            }
            Row::Join { operator: Operator::Both, left, right } => {
                self.holds(question, left, list) && self.holds(question, right, list)
            }
            Row::Join { .. } => self.splits(question, word, list),
        }
    }

    /// Whether the list falls into two parts, one for each side of a together or an apart.
    fn splits(&mut self, question: Question, word: usize, list: &[u16]) -> bool {
        let key = (question, word, list.to_vec());
        if let Some(answer) = self.tried.get(&key) {
            return *answer;
        }
        let answer = self.split(question, word, list, &mut Vec::new(), &mut Vec::new());
        self.tried.insert(key, answer);
        answer
    }

    /// Tries the first action of the rest on the left side, then on the right side; with no rest,
    /// asks both sides.
    fn split(
        &mut self,
        question: Question,
        word: usize,
        rest: &[u16],
        left: &mut Vec<u16>,
        right: &mut Vec<u16>,
    ) -> bool {
        let Row::Join { operator, left: left_word, right: right_word } = self.nodes[word].row
        else {
            panic!("only a term with two sides is split");
        };
        let Some((&action, rest)) = rest.split_first() else {
            return self.holds(question, left_word, left)
                && self.holds(question, right_word, right);
        };
        // Of equal actions the left side takes the first ones; other splits of them are the same.
        if right.last() != Some(&action) && self.may_join(operator, action, left_word, left, right)
        {
            left.push(action);
            let found = self.split(question, word, rest, left, right);
            left.pop();
            if found {
                return true;
            }
        }
        if !self.may_join(operator, action, right_word, right, left) {
            return false;
        }
        right.push(action);
        let found = self.split(question, word, rest, left, right);
        right.pop();
        found
    }

    /// Whether an action may join one side: there is room in it, and for apart the user has not
    /// acted in the other.
    fn may_join(
        &self,
        operator: Operator,
        action: u16,
        word: usize,
        side: &[u16],
        other: &[u16],
    ) -> bool {
        let user = |number: &u16| self.known[usize::from(*number)].user();
        let separate = !other.iter().any(|number| user(number) == user(&action));
        side.len() < self.nodes[word].most && (operator == Operator::Together || separate)
    }
}

/// The node for the term that begins at this word.
fn node(word: usize, term: &Term) -> Node {
    let row = match term {
        _ if term.is_unit() => Row::Unit,
        Term::Plus(_) => Row::Plus { inner: word + 1 },
        Term::Join(operator, left, _) => {
            Row::Join { operator: *operator, left: word + 1, right: word + 1 + left.length() }
        }
        _ => panic!("{term:?} is not accepted"),
    };
    Node { term: term.clone(), row, most: most(term) }
}

/// The number of actions that no list which satisfies the term, or is possible for it, exceeds.
fn most(term: &Term) -> usize {
    match term {
        _ if term.is_unit() => 1,
        Term::Join(Operator::Either, left, right) => most(left).max(most(right)),
        Term::Join(Operator::Both, left, right) => most(left).min(most(right)),
        Term::Join(_, left, right) => most(left).saturating_add(most(right)),
        _ => usize::MAX,
    }
}

#[cfg(test)]
mod tests {
    use super::*;
    use crate::raw::RawAction;

    /// Actions by these users that met everything.
    fn by(users: &[usize]) -> Vec<RawAction> {
        users.iter().map(|user| RawAction { user: *user, met: u32::MAX }).collect()
    }

    /// What the whole term answers: satisfied, possible.
    fn both_answers(term: &Term, users: &[usize]) -> (bool, bool) {
        let mut search = Search::new(term);
        (search.satisfied(&by(users)), search.possible(&by(users)))
    }

    #[test]
    fn nothing_satisfies_nothing_and_is_possible() {
        let everyone = || Term::Everyone;
        let mut terms = vec![everyone(), Term::not(everyone()), Term::plus(everyone())];
        for operator in Operator::ALL {
            terms.push(Term::join(operator, everyone(), Term::plus(everyone())));
        }
        for term in terms {
            assert_eq!(both_answers(&term, &[]), (false, true), "{term:?}");
        }
    }

    #[test]
    fn units_take_one_action() {
        let unit = Term::join(Operator::Both, Term::Everyone, Term::Everyone);
        assert_eq!(both_answers(&unit, &[0]), (true, true));
        assert_eq!(both_answers(&unit, &[0, 0]), (false, false));
    }

    #[test]
    fn apart_asks_for_different_users() {
        let plus = || Term::plus(Term::Everyone);
        let apart = Term::join(Operator::Apart, plus(), plus());
        assert_eq!(both_answers(&apart, &[0, 0, 0]), (false, true));
        assert_eq!(both_answers(&apart, &[0, 1, 0]), (true, true));
        let units = Term::join(Operator::Apart, Term::Everyone, Term::Everyone);
        assert_eq!(both_answers(&units, &[0, 0]), (false, false));
        let together = Term::join(Operator::Together, Term::Everyone, Term::Everyone);
        assert_eq!(both_answers(&together, &[0, 0]), (true, true));
    }

    #[test]
    fn a_unit_term_goes_by_its_own_bit() {
        let either = Term::join(Operator::Either, Term::Role(0), Term::Role(1));
        let mut search = Search::new(&either);
        let sides = [RawAction { user: 0, met: 0b110 }];
        let whole = [RawAction { user: 0, met: 0b001 }];
        assert!(!search.satisfied(&sides) && !search.possible(&sides));
        assert!(search.satisfied(&whole) && search.possible(&whole));
    }

    #[test]
    fn plus_goes_by_the_bit_of_its_inner_term() {
        let plus = Term::plus(Term::not(Term::Role(0)));
        let mut search = Search::new(&plus);
        let met = [RawAction { user: 0, met: 0b010 }, RawAction { user: 1, met: 0b110 }];
        assert!(search.satisfied(&met));
        assert!(!search.possible(&[RawAction { user: 0, met: 0b100 }]));
    }
}
