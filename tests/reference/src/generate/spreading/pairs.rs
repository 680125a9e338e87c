//! Pairs of cases that differ in the form of their policy alone: edges for every operator, side and
//! way, around 31 words and with every answer, and random ones.

use super::{other_form, steps, Form, Side, Step, Way, SPREADING};
use crate::casefile::Case;
use crate::examples::{action, grant, numbered, revoke, CLOSE};
use crate::generate::secure::{permissions, under_workflow, Plan};
use crate::generate::{calls, cases, Random};
use crate::policy::{Operator, Term, MOST_WORDS};
use crate::secure::Given;

/// A case, another form of its policy, and a multiset to test under both.
#[derive(Clone, Debug, PartialEq, Eq)]
pub struct Pair {
    /// The case.
    pub case: Case,
    /// Its policy as a term.
    pub term: Term,
    /// The other form of it.
    pub form: Form,
    /// How many actions each user makes in the multiset.
    pub counts: [u8; 16],
}

impl Pair {
    /// The case with the other form.
    pub fn other(&self) -> Case {
        Case { policy: self.form.term.words(), ..self.case.clone() }
    }
}

/// A random pair. In most the policy has places for steps.
pub fn random_pair(random: &mut Random) -> Pair {
    let case = match random.below(8) {
        0 => cases::case(random, 4, 3, 70),
        1 => cases::leavers_case(random),
        2..=4 => cases::choosing_case(random),
        _ => {
            let base = cases::choosing_case(random);
            under_workflow(random, base)
        }
    };
    let term = cases::term_of(&case);
    let count = random.between(1, 8);
    let form = other_form(random, &term, count);
    let actions = random.between(0, 6);
    let counts = calls::counts(random, case.users.into(), actions);
    Pair { case, term, form, counts }
}

/// The choice between a pricer and an editor, or between other duties.
fn either(one: Term, other: Term) -> Term {
    Term::join(Operator::Either, one, other)
}

/// Joint duties of a counter (role 0) with a pricer (role 1) or an editor (role 2), for each operator
/// and side: of unit terms alone, with a plus on one side, and with one on both.
fn joint_duties() -> Vec<Term> {
    let [counter, pricer, editor] = [0, 1, 2].map(Term::Role);
    let several = either(pricer.clone(), Term::plus(editor.clone()));
    let one = either(pricer, editor);
    let mut found = Vec::new();
    for operator in SPREADING {
        for side in Side::ALL {
            found.push(side.joined(operator, &counter, &one));
            found.push(side.joined(operator, &counter, &several));
            found.push(side.joined(operator, &Term::plus(counter.clone()), &several));
        }
    }
    found
}

/// Unit terms with such a duty under a not, under a plus and under both, and beside another duty.
fn unit_duties() -> Vec<Term> {
    let choice = either(Term::Role(1), Term::set(&[0, 2]));
    let mut found = Vec::new();
    for side in Side::ALL {
        let unit = || side.joined(Operator::Both, &Term::Role(0), &choice);
        let denied = Term::plus(Term::not(unit()));
        found.extend([Term::not(unit()), Term::plus(unit()), denied.clone()]);
        found.push(Term::join(Operator::Together, denied, Term::not(Term::not(unit()))));
    }
    found
}

/// Duties whose other forms have 31, 32 and 33 words, for each operator.
fn long_duties() -> Vec<Term> {
    let (counter, pricer) = (|| Term::Role(0), || Term::Role(1));
    let counters = |first: Term| {
        let join = |chain, _| Term::join(Operator::Together, counter(), chain);
        (0..6).fold(first, join)
    };
    let mut found = Vec::new();
    for operator in SPREADING {
        let duty = |first, one| Term::join(operator, counters(first), either(one, Term::Role(2)));
        found.push(duty(counter(), pricer()));
        found.push(duty(counter(), Term::plus(pricer())));
        found.push(duty(Term::plus(counter()), pricer()));
    }
    found
}

/// Events for four users, of whom the last holds every role, and how often each is in a multiset.
fn runs() -> Vec<(&'static str, Vec<u32>, [u8; 4])> {
    let acts = [1, 0, 2].map(action);
    let leaving = [revoke(3, 2), action(3), revoke(3, 1), action(3), grant(2, 0), action(2)];
    let alone = [vec![action(3); 13], vec![CLOSE, action(3)]].concat();
    let by_turns = [3, 1, 3, 2, 0, 0].map(action);
    vec![
        ("each once", [&acts[..], &[CLOSE, action(4), action(3), CLOSE]].concat(), [1, 1, 0, 0]),
        ("one alone", alone, [0, 0, 0, 2]),
        ("by turns", by_turns.to_vec(), [1, 0, 1, 0]),
        ("changing roles", [&leaving[..], &[CLOSE, CLOSE]].concat(), [0, 0, 0, 1]),
    ]
}

/// The case under this policy with such events.
fn case(policy: &Term, events: &[u32]) -> Case {
    let (policy, events) = (policy.words(), events.to_vec());
    Case { users: 4, roles: 3, policy, user_roles: vec![1, 2, 4, 7], events, given: None }
}

/// The case under permissions and a workflow: action 0 is for counters, 1 for all three, and the
/// second state, to which 1 leads, is final and has no action 0.
fn with_workflow(policy: &Term) -> Case {
    let transitions = vec![[0, 0, 0], [0, 1, 1], [1, 1, 1]];
    let plan = Plan { states: 2, final_states: 0b10, transitions };
    let given = Given { permissions: permissions(&[0b11, 0b10, 0b10]), workflow: plan.bytes() };
    let acts = [(0, 0), (1, 0), (3, 2), (3, 0)].map(|(user, number)| numbered(user, number));
    let rest = [(1, 1), (2, 1), (3, 1), (3, 0)].map(|(user, number)| numbered(user, number));
    let events = [&acts[..], &[CLOSE], &rest, &[CLOSE]].concat();
    Case { given: Some(given), ..case(policy, &events) }
}

/// A case whose opening is refused with 6 under any accepted policy, and one with 19.
fn refused(policy: &Term) -> [Case; 2] {
    let mut undeclared = case(policy, &[action(0)]);
    undeclared.user_roles[3] = 8;
    let given = Some(Given { permissions: vec![0], workflow: vec![] });
    [undeclared, Case { given, ..case(policy, &[action(0)]) }]
}

/// The cases under a policy, each with a multiset.
fn cases_under(policy: &Term) -> Vec<(String, Case, [u8; 4])> {
    let mut found = Vec::new();
    for (name, events, counts) in runs() {
        found.push((name.to_string(), case(policy, &events), counts));
    }
    found.push(("a workflow".to_string(), with_workflow(policy), [0; 4]));
    for (number, case) in [6, 19].into_iter().zip(refused(policy)) {
        found.push((format!("refused with {number}"), case, [0, 0, 0, 13]));
    }
    found
}

/// The pairs of a term with each form that one step leads to, and the same back where that form is no
/// longer than a policy.
fn one_step(term: &Term) -> Vec<(Term, Form)> {
    let mut found = Vec::new();
    for step in steps(term) {
        let form = Form::of(term).after(step);
        let other = form.term.clone();
        let undone = |step: &Step| step.after(&other) == *term;
        found.push((term.clone(), form));
        if other.length() <= MOST_WORDS {
            let back = steps(&other).into_iter().find(undone).expect("each step can be undone");
            found.push((other.clone(), Form::of(&other).after(back)));
        }
    }
    found
}

/// A term of 22 words and one of 31 that it becomes by way of 33: one side is spread, then the other
/// gathered.
fn detour() -> (Term, Form) {
    let role = Term::Role;
    let together = |one, other| Term::join(Operator::Together, one, other);
    let counters = (0..4).fold(Term::plus(role(0)), |chain, _| together(role(0), chain));
    let joint = together(counters, either(role(1), role(2)));
    let alternatives = either(together(role(0), role(1)), together(role(0), role(2)));
    let term = together(joint, alternatives);
    let last = |form: Form, way| {
        let step = steps(&form.term).into_iter().rfind(|step| step.way == way);
        form.after(step.expect("there is such a step"))
    };
    let form = last(last(Form::of(&term), Way::Spread), Way::Gather);
    (term, form)
}

/// Pairs for each operator, side and way, with names.
pub fn edges() -> Vec<(String, Pair)> {
    let duties = [joint_duties(), unit_duties(), long_duties()].concat();
    let mut forms: Vec<(Term, Form)> = duties.iter().flat_map(one_step).collect();
    forms.push(detour());
    let mut found = Vec::new();
    for (term, form) in forms {
        for (name, case, few) in cases_under(&term) {
            let mut counts = [0; 16];
            counts[..4].copy_from_slice(&few);
            let name = format!("edge {}, {name}", found.len());
            found.push((name, Pair { case, term: term.clone(), form: form.clone(), counts }));
        }
    }
    found
}
