//! Policies: terms, policy words, unit terms and the normal form (01, "People, roles and policy
//! words", "When one person meets a unit term" and "Normal form"; 02, E3 for not).

use std::collections::BTreeSet;

use crate::code::{self, Code};

/// The most words that a policy may have.
pub const MOST_WORDS: usize = 31;
/// The most users that may be declared.
pub const MOST_USERS: usize = 16;
/// The most roles that may be declared.
pub const MOST_ROLES: usize = 16;

/// An operator that joins two terms; its number is its kind.
#[derive(Clone, Copy, Debug, PartialEq, Eq, PartialOrd, Ord, Hash)]
pub enum Operator {
    /// One of the two sides.
    Either = 6,
    /// Both sides on the same actions.
    Both = 7,
    /// The actions fall into two parts, one for each side.
    Together = 8,
    /// As together, and no user acts in both parts.
    Apart = 9,
}

impl Operator {
    /// All four operators, in the order of their kinds.
    pub const ALL: [Operator; 4] =
        [Operator::Either, Operator::Both, Operator::Together, Operator::Apart];

    /// The operator with this kind, if there is one.
    fn of_kind(kind: u32) -> Option<Operator> {
        Operator::ALL.into_iter().find(|operator| *operator as u32 == kind)
    }
}

/// A policy term.
#[derive(Clone, Debug, PartialEq, Eq, PartialOrd, Ord, Hash)]
pub enum Term {
    /// Any user who holds some role.
    Everyone,
    /// Any user who holds this role.
    Role(usize),
    /// Any of these users who holds some role.
    Set(BTreeSet<usize>),
    /// Any user who holds some role and does not meet the inner unit term.
    Not(Box<Term>),
    /// One or more actions, each by a user who meets the inner unit term.
    Plus(Box<Term>),
    /// Two terms joined by an operator.
    Join(Operator, Box<Term>, Box<Term>),
}

impl Term {
    /// The set of these users.
    pub fn set(users: &[usize]) -> Term {
        Term::Set(users.iter().copied().collect())
    }

    /// Not over a term.
    #[allow(clippy::should_implement_trait)]
    pub fn not(inner: Term) -> Term {
        Term::Not(Box::new(inner))
    }

    /// Plus over a term.
    pub fn plus(inner: Term) -> Term {
        Term::Plus(Box::new(inner))
    }

    /// Two terms joined by an operator.
    pub fn join(operator: Operator, left: Term, right: Term) -> Term {
        Term::Join(operator, Box::new(left), Box::new(right))
    }

    /// The sides of a term: none, one or two.
    pub fn sides(&self) -> Vec<&Term> {
        match self {
            Term::Everyone | Term::Role(_) | Term::Set(_) => vec![],
            Term::Not(inner) | Term::Plus(inner) => vec![inner],
            Term::Join(_, left, right) => vec![left, right],
        }
    }

    /// Every term inside this one, itself first: entry i is the term that begins at word i.
    pub fn prefix_order(&self) -> Vec<&Term> {
        let mut terms = vec![self];
        for side in self.sides() {
            terms.extend(side.prefix_order());
        }
        terms
    }

    /// The number of words of the term.
    pub fn length(&self) -> usize {
        self.prefix_order().len()
    }

    /// The word with which the term begins.
    fn first_word(&self) -> u32 {
        match self {
            Term::Everyone => 1 << 24,
            Term::Role(role) => 2 << 24 | *role as u32,
            Term::Set(users) => 3 << 24 | users.iter().map(|user| 1 << user).sum::<u32>(),
            Term::Not(_) => 4 << 24,
            Term::Plus(_) => 5 << 24,
            Term::Join(operator, _, _) => (*operator as u32) << 24,
        }
    }

    /// The words of the term in prefix order.
    pub fn words(&self) -> Vec<u32> {
        self.prefix_order().into_iter().map(Term::first_word).collect()
    }

    /// Whether there is no plus, together or apart in the term.
    pub fn is_unit(&self) -> bool {
        !self.prefix_order().into_iter().any(|term| {
            matches!(term, Term::Plus(_) | Term::Join(Operator::Together | Operator::Apart, _, _))
        })
    }

    /// The mask of the words that begin unit terms, bit i for word i.
    pub fn unit_mask(&self) -> u32 {
        let terms = self.prefix_order();
        let places = (0..terms.len()).filter(|place| terms[*place].is_unit());
        places.map(|place| 1u32 << place).sum()
    }

    /// The first word that is a not or plus over a term that is no unit term, if there is one.
    pub(crate) fn first_misplaced(&self) -> Option<usize> {
        self.prefix_order().into_iter().position(|term| match term {
            Term::Not(inner) | Term::Plus(inner) => !inner.is_unit(),
            _ => false,
        })
    }

    /// The operands of the chain of this operator that the term is; one operand, the term itself,
    /// if it does not begin with that operator.
    fn chain(&self, operator: Operator) -> Vec<&Term> {
        match self {
            Term::Join(own, left, right) if *own == operator => {
                let mut operands = left.chain(operator);
                operands.extend(right.chain(operator));
                operands
            }
            _ => vec![self],
        }
    }

    /// The normal form: every chain sorted by the words of its operands and leaning right.
    pub fn normal(&self) -> Term {
        match self {
            Term::Everyone | Term::Role(_) | Term::Set(_) => self.clone(),
            Term::Not(inner) => Term::not(inner.normal()),
            Term::Plus(inner) => Term::plus(inner.normal()),
            Term::Join(operator, _, _) => {
                let chain = self.chain(*operator);
                let mut operands: Vec<Term> = chain.into_iter().map(Term::normal).collect();
                operands.sort_by_key(Term::words);
                lean_right(*operator, operands)
            }
        }
    }
}

/// Writes a chain as operator, first, operator, second, and so on to the last operand.
fn lean_right(operator: Operator, mut operands: Vec<Term>) -> Term {
    let mut chain = operands.pop().expect("a chain has at least two operands");
    while let Some(operand) = operands.pop() {
        chain = Term::join(operator, operand, chain);
    }
    chain
}

/// Whether a user who holds these roles meets a unit term.
///
/// # Panics
/// If the term is no unit term.
pub fn meets(unit: &Term, user: usize, held: &BTreeSet<usize>) -> bool {
    match unit {
        Term::Everyone => !held.is_empty(),
        Term::Role(role) => held.contains(role),
        Term::Set(users) => users.contains(&user) && !held.is_empty(),
        Term::Not(inner) => !held.is_empty() && !meets(inner, user, held),
        Term::Join(Operator::Either, left, right) => {
            meets(left, user, held) || meets(right, user, held)
        }
        Term::Join(Operator::Both, left, right) => {
            meets(left, user, held) && meets(right, user, held)
        }
        Term::Plus(_) | Term::Join(_, _, _) => panic!("{unit:?} is no unit term"),
    }
}

/// Which unit terms of a policy a user who holds these roles meets: bit i for the one at word i.
pub fn met_bits(policy: &Term, user: usize, held: &BTreeSet<usize>) -> u32 {
    let terms = policy.prefix_order();
    let met = |place: &usize| terms[*place].is_unit() && meets(terms[*place], user, held);
    (0..terms.len()).filter(met).map(|place| 1u32 << place).sum()
}

/// The numbers of the ones in a mask of 16 bits.
pub fn ones(mask: u16) -> BTreeSet<usize> {
    (0..16).filter(|place| mask >> place & 1 == 1).collect()
}

/// Whether the counts of users and roles are both 1 to 16.
pub fn counts_fit(users: usize, roles: usize) -> bool {
    (1..=MOST_USERS).contains(&users) && (1..=MOST_ROLES).contains(&roles)
}

/// Whether a word is in the layout and names only declared users and roles and no empty set.
pub(crate) fn word_fits(users: usize, roles: usize, word: u32) -> bool {
    let operand = (word & 0xffff) as u16;
    let operand_fits = match word >> 24 {
        1 | 4..=9 => operand == 0,
        2 => usize::from(operand) < roles,
        3 => operand != 0 && ones(operand).into_iter().all(|user| user < users),
        _ => false,
    };
    operand_fits && word >> 16 & 0xff == 0
}

/// The term that the words are, if they are exactly one term.
///
/// Goes through the words from the last to the first and keeps the terms that are whole so far;
/// a word takes its sides from the last ones kept.
pub(crate) fn build(words: &[u32]) -> Option<Term> {
    let mut whole: Vec<Term> = Vec::new();
    for word in words.iter().rev() {
        let operand = (word & 0xffff) as u16;
        let term = match word >> 24 {
            1 => Term::Everyone,
            2 => Term::Role(usize::from(operand)),
            3 => Term::Set(ones(operand)),
            4 => Term::not(whole.pop()?),
            5 => Term::plus(whole.pop()?),
            kind => {
                let operator = Operator::of_kind(kind)?;
                let left = whole.pop()?;
                Term::join(operator, left, whole.pop()?)
            }
        };
        whole.push(term);
    }
    let term = whole.pop()?;
    whole.is_empty().then_some(term)
}

/// Reads policy words as a term.
///
/// # Errors
/// 5, 1, 2, 3, 4, looked for in that order.
pub fn read_term(users: usize, roles: usize, words: &[u32]) -> Result<Term, Code> {
    if !counts_fit(users, roles) {
        return Err(code::COUNTS);
    }
    if words.is_empty() || words.len() > MOST_WORDS {
        return Err(code::POLICY_LENGTH);
    }
    if !words.iter().all(|word| word_fits(users, roles, *word)) {
        return Err(code::POLICY_WORD);
    }
    let term = build(words).ok_or(code::NOT_ONE_TERM)?;
    if term.first_misplaced().is_some() {
        return Err(code::NOT_OVER_UNIT);
    }
    Ok(term)
}

/// Reads a policy as the product answers it: its word count and the mask of the words that begin
/// unit terms.
///
/// # Errors
/// As [`read_term`].
pub fn read_policy(users: usize, roles: usize, words: &[u32]) -> Result<(usize, u32), Code> {
    let term = read_term(users, roles, words)?;
    Ok((words.len(), term.unit_mask()))
}

/// Writes the normal form of a policy at the start of the output and answers 0; a refusal leaves
/// the output as it was and answers 5, 1 to 4 or 13, looked for in that order.
pub fn normal_form(users: usize, roles: usize, words: &[u32], output: &mut [u32]) -> Code {
    let term = match read_term(users, roles, words) {
        Ok(term) => term,
        Err(refusal) => return refusal,
    };
    if output.len() < words.len() {
        return code::OUTPUT_SHORT;
    }
    output[..words.len()].copy_from_slice(&term.normal().words());
    code::ACCEPTED
}

/// Whether the rows of roles are one a user and name only declared roles (else 6).
pub fn user_roles_fit(users: usize, roles: usize, user_roles: &[u16]) -> bool {
    let declared = |row: &u16| ones(*row).into_iter().all(|role| role < roles);
    user_roles.len() == users && user_roles.iter().all(declared)
}

#[cfg(test)]
mod tests {
    use super::*;
    use crate::examples::POLICY_F;
    use crate::words::{ALL, APART, BOTH, EITHER, NOT, PLUS, TOGETHER};

    /// The answer for two users and three roles.
    fn read(words: &[u32]) -> Result<(usize, u32), Code> {
        read_policy(2, 3, words)
    }

    #[test]
    fn leaves_are_read() {
        for word in [ALL, 0x02000000, 0x02000002, 0x03000001, 0x03000002, 0x03000003] {
            assert_eq!(read(&[word]), Ok((1, 1)), "{word:08x}");
        }
    }

    #[test]
    fn words_out_of_layout_are_2() {
        let plain = [0, 0x0a000000, 0xff000000, 0x02000003, 0x0200ffff, 0x03000000, 0x03000004];
        for word in plain {
            assert_eq!(read(&[word]), Err(2), "{word:08x}");
        }
        for kind in 1..=9 {
            let good = kind << 24 | u32::from(kind == 3);
            for bit in 16..24 {
                assert_eq!(read(&[good | 1 << bit]), Err(2));
            }
            if kind != 2 && kind != 3 {
                assert_eq!(read(&[good | 1]), Err(2));
                assert_eq!(read(&[good | 0x8000]), Err(2));
            }
        }
    }

    #[test]
    fn numbers_come_in_order() {
        assert_eq!(read_policy(0, 3, &[]), Err(5));
        assert_eq!(read_policy(17, 3, &[ALL]), Err(5));
        assert_eq!(read_policy(2, 0, &[0]), Err(5));
        assert_eq!(read_policy(2, 17, &[0; 40]), Err(5));
        assert_eq!(read_policy(16, 16, &[0x0200000f]), Ok((1, 1)));
        assert_eq!(read_policy(16, 16, &[0x03008000]), Ok((1, 1)));
        assert_eq!(read(&[]), Err(1));
        assert_eq!(read(&[0; 32]), Err(1));
        assert_eq!(read(&[ALL, 0]), Err(2), "2 is looked for in words left over too");
        assert_eq!(read(&[NOT, PLUS, ALL, ALL]), Err(3));
        assert_eq!(read(&[NOT, PLUS, ALL]), Err(4));
    }

    #[test]
    fn not_one_term_is_3() {
        let wrong: [&[u32]; 6] =
            [&[ALL, ALL], &[TOGETHER], &[APART, ALL], &[NOT], &[ALL, PLUS], &[EITHER, NOT, ALL]];
        for words in wrong {
            assert_eq!(read(words), Err(3), "{words:08x?}");
        }
    }

    #[test]
    fn lengths_of_31_and_32() {
        let chain = |operators: usize| [vec![APART; operators], vec![ALL; operators + 1]].concat();
        assert_eq!(read(&chain(15)), Ok((31, 0x7fff8000)));
        assert_eq!(read(&[vec![NOT], chain(15)].concat()), Err(1));
        assert_eq!(read(&chain(16)), Err(1));
        let units = [vec![EITHER; 15], vec![ALL; 16]].concat();
        assert_eq!(read(&units), Ok((31, 0x7fffffff)));
    }

    #[test]
    fn units_are_marked() {
        assert_eq!(read_policy(3, 3, &POLICY_F), Ok((10, 0b10_1101_0100)));
        assert_eq!(read(&[BOTH, ALL, PLUS, ALL]), Ok((4, 0b1010)));
        assert_eq!(read(&[PLUS, NOT, BOTH, ALL, ALL]), Ok((5, 0b11110)));
    }

    #[test]
    fn users_meet_unit_terms() {
        let (none, some) = (BTreeSet::new(), BTreeSet::from([1]));
        assert!(!meets(&Term::Everyone, 0, &none) && meets(&Term::Everyone, 0, &some));
        assert!(!meets(&Term::Role(0), 0, &some) && meets(&Term::Role(1), 0, &some));
        assert!(!meets(&Term::set(&[0]), 0, &none) && meets(&Term::set(&[0]), 0, &some));
        assert!(!meets(&Term::set(&[1]), 0, &some));
        assert!(!meets(&Term::not(Term::Role(0)), 0, &none));
        assert!(meets(&Term::not(Term::Role(0)), 0, &some));
        assert!(!meets(&Term::not(Term::Role(1)), 0, &some));
    }

    #[test]
    fn normal_forms_sort_and_lean_right() {
        let words = [TOGETHER, TOGETHER, 0x02000002, ALL, TOGETHER, 0x02000000, ALL];
        let mut output = [9; 8];
        assert_eq!(normal_form(2, 3, &words, &mut output), 0);
        let expected = [TOGETHER, ALL, TOGETHER, ALL, TOGETHER, 0x02000000, 0x02000002, 9];
        assert_eq!(output, expected);
    }

    #[test]
    fn normal_forms_reach_under_not_and_plus() {
        let words = [PLUS, NOT, EITHER, 0x02000001, EITHER, BOTH, 0x03000001, ALL, ALL];
        let mut output = [0; 9];
        assert_eq!(normal_form(2, 3, &words, &mut output), 0);
        let expected = [PLUS, NOT, EITHER, ALL, EITHER, 0x02000001, BOTH, ALL, 0x03000001];
        assert_eq!(output, expected);
    }

    #[test]
    fn refused_normal_forms_leave_the_output() {
        let mut output = [7; 2];
        assert_eq!(normal_form(2, 3, &[BOTH, ALL, ALL], &mut output), 13);
        assert_eq!(normal_form(2, 3, &[PLUS, PLUS, ALL], &mut output), 4);
        assert_eq!(normal_form(2, 3, &[], &mut output), 1);
        assert_eq!(normal_form(0, 3, &[], &mut output), 5);
        assert_eq!(output, [7; 2]);
    }
}
