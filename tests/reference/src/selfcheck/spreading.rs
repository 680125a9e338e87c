//! Spread forms held against each other (02, E9), by the search and by the literal definitions, and
//! rules that look like spreading but are none.

use super::{chosen, Small, SmallWorkflow, Tally, ACTIONS};
use crate::code;
use crate::event::Event;
use crate::examples::Check;
use crate::generate::spreading::{other_form, Form};
use crate::generate::terms::{self, Style};
use crate::generate::{spreading, Random};
use crate::literal::{self, Reading};
use crate::policy::{self, Operator, Term, MOST_WORDS};

/// Two terms of which one would become the other if a wrong rule were one.
type WrongRule = fn(Term, Term, Term) -> [Term; 2];

/// The wrong rules: what they are called where a case tells the terms apart, and where none does.
const WRONG: [(&str, &str, WrongRule); 3] = [
    ("plus over either told apart", "plus over either alike", plus_over_either),
    ("either over together told apart", "either over together alike", either_over_together),
    ("apart into together told apart", "apart into together alike", apart_into_together),
];

/// The most words of a form that the literal definitions judge, since their processes grow fast.
const MOST_LITERAL: usize = 15;

/// Plus over a choice, and the choice between two pluses.
fn plus_over_either(_: Term, b: Term, c: Term) -> [Term; 2] {
    let either = |one, other| Term::join(Operator::Either, one, other);
    [Term::plus(either(b.clone(), c.clone())), either(Term::plus(b), Term::plus(c))]
}

/// A choice beside a joint duty, and two choices together.
fn either_over_together(a: Term, b: Term, c: Term) -> [Term; 2] {
    let either =
        |one: &Term, other: &Term| Term::join(Operator::Either, one.clone(), other.clone());
    let together = |one, other| Term::join(Operator::Together, one, other);
    let spread = together(either(&a, &b), either(&a, &c));
    [either(&a, &together(b, c)), spread]
}

/// A duty apart from a choice, and two alternatives that only ask for both together.
fn apart_into_together(a: Term, b: Term, c: Term) -> [Term; 2] {
    let join =
        |operator, one: &Term, other: &Term| Term::join(operator, one.clone(), other.clone());
    let choice = join(Operator::Either, &b, &c);
    let [first, second] = [b, c].map(|chosen| join(Operator::Together, &a, &chosen));
    [join(Operator::Apart, &a, &choice), join(Operator::Either, &first, &second)]
}

/// The wrong rules on roles 0, 1 and 2, each with a case that tells its terms apart.
pub(super) fn examples() -> Vec<Check> {
    let act = |user| Event::Action { user, action: 0 };
    let told = |rule: WrongRule, user_roles: &[u16], users: &[usize]| {
        let [a, b, c] = [0, 1, 2].map(Term::Role);
        let terms = rule(a, b, c);
        let small = Small {
            users: user_roles.len(),
            roles: 3,
            term: terms[0].clone(),
            user_roles: user_roles.to_vec(),
            events: users.iter().map(|user| act(*user)).collect(),
        };
        small.answers(&terms[0]) != small.answers(&terms[1])
    };
    vec![
        ("plus does not spread over either", told(plus_over_either, &[2, 4], &[0, 1])),
        ("either does not spread over together", told(either_over_together, &[1], &[0])),
        ("apart does not spread into together", told(apart_into_together, &[3], &[0, 0])),
    ]
}

/// The users, roles and events of a small case under a policy that allows a step, and under its other
/// form; then under the terms of each wrong rule.
pub(super) fn check(tally: &mut Tally, small: &Small, random: &mut Random) {
    let style = Style { users: small.users, roles: small.roles, lean: 60 };
    let term = spreading::term(random, style, 8);
    let steps = random.between(1, 4);
    let form = other_form(random, &term, steps);
    let small = Small { term, ..small.clone() };
    check_form(tally, &small, &form);
    check_answers(tally, &small, &form.term, random);
    if form.term.length() <= MOST_LITERAL {
        check_literally(tally, &small, &form.term, random);
    }
    for (told, alike, rule) in WRONG {
        let [a, b, c] = std::array::from_fn(|_| terms::unit(random, style, 1));
        let [one, other] = rule(a, b, c);
        tally.cover(told, alike, small.answers(&one) != small.answers(&other));
    }
}

/// The other form is another one, and accepted unless it has passed 31 words.
fn check_form(tally: &mut Tally, small: &Small, form: &Form) {
    let (length, words) = (form.term.length(), form.term.words());
    let read = policy::read_term(small.users, small.roles, &words);
    let fits = length <= MOST_WORDS;
    let expected = if fits { Ok(form.term.clone()) } else { Err(code::POLICY_LENGTH) };
    tally.check("a spread form is accepted up to 31 words", read == expected, &(small, form));
    let made = !form.made.is_empty() && form.term != small.term;
    tally.check("a spread form is another one", made, &(small, form));
    let same = form.term.normal() == small.term.normal();
    tally.cover("spread forms, one normal form", "spread forms, two normal forms", same);
}

/// Both forms answer the same, alone and under a small workflow.
fn check_answers(tally: &mut Tally, small: &Small, other: &Term, random: &mut Random) {
    if other.length() > MOST_WORDS {
        return;
    }
    let answers = small.answers(&small.term);
    let same = answers == small.answers(other);
    tally.check("spread forms, the same answers", same, &(small, other));
    let taken = answers[..small.events.len()].iter().all(|(code, _)| *code == code::ACCEPTED);
    tally.cover("spread forms, all taken", "spread forms, some refused", taken);
    let (workflow, action) = (SmallWorkflow::random(random, small.roles), random.pick(&ACTIONS));
    let answers = |term| workflow.answers(small, term, action);
    let same = answers(&small.term) == answers(other);
    tally.check("spread forms, the same answers under a workflow", same, &(small, other));
}

/// Both forms are alike by Definitions 3, 6 and 7: for the whole trace without some of its actions,
/// and for a multiset.
fn check_literally(tally: &mut Tally, small: &Small, other: &Term, random: &mut Random) {
    let trace = chosen(&small.trace(), random.below(16));
    let assignment = small.assignment();
    let satisfied = |term| literal::trace_satisfies(&trace, small.users, &assignment, term);
    let own = satisfied(&small.term);
    tally.check("spread forms are alike by Definition 6", own == satisfied(other), &(small, other));
    tally.cover("spread traces satisfying", "spread traces not satisfying", own);
    let possible = |term: &Term| {
        let process = Small { term: term.clone(), ..small.clone() }.process(Reading::UnitFirst);
        let states = literal::accepts(&process, &trace);
        let done = |state| !literal::next(state, literal::Event::Done).is_empty();
        (states.is_empty(), states.iter().any(done))
    };
    let own = possible(&small.term);
    tally.check("spread forms are alike by Definition 7", own == possible(other), &(small, other));
    tally.cover("spread traces not possible", "spread traces possible", own.0);
    let multiset: Vec<usize> = (0..small.users).map(|_| random.below(3)).collect();
    let satisfies = |term| literal::multiset_satisfies(&multiset, &assignment, term);
    let own = satisfies(&small.term);
    tally.check("spread forms are alike by Definition 3", own == satisfies(other), &(small, other));
    tally.cover("spread multisets yes", "spread multisets no", own);
}
