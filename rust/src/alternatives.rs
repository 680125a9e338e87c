//! Policies as whole alternatives (document 02, E9).

use crate::refusal::Refusal;
use crate::term::{Term, APART, BOTH, EITHER, NOT, PLUS, TOGETHER};

/// What puts two sides together.
type Operator = fn(Term, Term) -> Result<Term, Refusal>;

impl Term {
    /// Splits the choices out of a policy's joint duties: together, apart and both are spread over
    /// either, on both sides and inside not and plus too, until no either stands right under one of
    /// them. A policy with nothing to split comes back as it is.
    ///
    /// Both forms give every list of events the same numbers and statuses, from the same counts, roles,
    /// permissions and workflow. That spreading keeps them is proved; this function, which spreads, is
    /// tested. Where something was split, the normal form is another one, since
    /// [`normal_form`](crate::normal_form) exchanges and regroups sides only.
    ///
    /// Plus does not spread: under `plus (r1 or r2)` a pricer and an editor may act, under
    /// `(plus r1 or plus r2)` only one kind of them.
    ///
    /// # Errors
    /// [`WordCount`](Refusal::WordCount) if there would be more than 31 words. Each choice that is
    /// split writes what stands beside it twice.
    ///
    /// # Example
    ///
    /// Document 02's "counter with (pricer or editor)":
    ///
    /// ```
    /// use oskhrein::{Refusal, Term};
    ///
    /// let joint: Term = "policy: (r0 with (r1 or r2))".parse()?;
    /// let whole = joint.alternatives()?;
    /// assert_eq!(whole.to_string(), "policy: ((r0 with r1) or (r0 with r2))");
    /// assert_eq!(whole.alternatives(), Ok(whole));
    /// # Ok::<(), Refusal>(())
    /// ```
    ///
    /// Four duties, each of them a choice, are sixteen alternatives, too many for a policy:
    ///
    /// ```
    /// # use oskhrein::{Refusal, Term};
    /// let duty = Term::either(Term::role(0)?, Term::role(1)?)?;
    /// let two = Term::together(duty, duty)?;
    /// let four = Term::together(two, two)?;
    /// assert_eq!(two.alternatives()?.words().len(), 15);
    /// assert_eq!(four.alternatives(), Err(Refusal::WordCount));
    /// # Ok::<(), Refusal>(())
    /// ```
    pub fn alternatives(self) -> Result<Term, Refusal> {
        let split: Result<Vec<Term>, Refusal> =
            sides(self).into_iter().map(Term::alternatives).collect();
        match (kind(self), &split?[..]) {
            (NOT, &[inner]) => Term::not(inner),
            (PLUS, &[inner]) => Term::plus(inner),
            (EITHER, &[left, right]) => Term::either(left, right),
            (BOTH, &[left, right]) => spread(Term::both, left, right),
            (TOGETHER, &[left, right]) => spread(Term::together, left, right),
            (APART, &[left, right]) => spread(Term::apart, left, right),
            _ => Ok(self),
        }
    }
}

/// An operator over two sides in which nothing is left to split, spread over the choices that they are.
fn spread(operator: Operator, left: Term, right: Term) -> Result<Term, Refusal> {
    if let Some((one, other)) = choice(left) {
        return Term::either(spread(operator, one, right)?, spread(operator, other, right)?);
    }
    if let Some((one, other)) = choice(right) {
        return Term::either(spread(operator, left, one)?, spread(operator, left, other)?);
    }
    operator(left, right)
}

/// The sides of an either.
fn choice(term: Term) -> Option<(Term, Term)> {
    match (kind(term), &sides(term)[..]) {
        (EITHER, &[one, other]) => Some((one, other)),
        _ => None,
    }
}

/// The kind of a term's first word.
fn kind(term: Term) -> u32 {
    term.words()[0] >> 24
}

/// The terms behind a term's first word.
fn sides(term: Term) -> Vec<Term> {
    let mut sides = Vec::new();
    let mut rest = &term.words()[1..];
    while !rest.is_empty() {
        let (side, behind) = rest.split_at(first_length(rest));
        sides.push(Term::accepted(side));
        rest = behind;
    }
    sides
}

/// How many words the first of some terms has: each word fills one open place, and opens one a side.
fn first_length(words: &[u32]) -> usize {
    let mut open = 1;
    let last = words.iter().position(|word| {
        open -= 1;
        open += match word >> 24 {
            NOT | PLUS => 1,
            EITHER..=APART => 2,
            _ => 0,
        };
        open == 0
    });
    1 + last.expect("a term is whole")
}
