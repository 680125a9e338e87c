//! Choices split out of joint duties (document 02, E9): what `Term::alternatives` makes of a policy, that
//! every run is answered alike, and which other forms are not answered alike.

mod common;

use std::collections::BTreeMap;
use std::fmt::Debug;

use common::{marked, number, step};
use oskhrein::{normal_form, satisfies, Event, Monitor, Permissions, Refusal, SecureWorkflow};
use oskhrein::{Status, Term, Workflow, Workspace, MAX_WORDS};

const NOT: u32 = 4;
const PLUS: u32 = 5;
const EITHER: u32 = 6;
const BOTH: u32 = 7;
const TOGETHER: u32 = 8;
const APART: u32 = 9;

const USERS: u8 = 4;
const ROLES: u8 = 3;
/// Actions of the workflows below.
const ACTIONS: u8 = 4;

/// Numbers that look random.
struct Random(u32);

impl Random {
    fn below(&mut self, bound: u32) -> u32 {
        self.0 = self.0.wrapping_mul(1664525).wrapping_add(1013904223);
        (self.0 >> 8) % bound
    }

    fn byte(&mut self, bound: u8) -> u8 {
        self.below(bound.into()) as u8
    }
}

/// The term of a text without the opening.
fn term(text: &str) -> Term {
    format!("policy: {text}").parse().expect(text)
}

/// What becomes of a term, both as texts without the opening.
fn split(text: &str) -> String {
    let split = term(text).alternatives().expect(text).to_string();
    split.strip_prefix("policy: ").expect("a policy's text").to_string()
}

/// How many sides follow a word of this kind.
fn sides(kind: u32) -> usize {
    [0, 1, 2][usize::from(kind >= NOT) + usize::from(kind >= EITHER)]
}

/// Where an either stands right under together, apart or both.
#[derive(Clone, Copy, Debug, PartialEq, Eq, PartialOrd, Ord)]
struct Choice {
    operator: u32,
    side: usize,
    in_not: bool,
    in_plus: bool,
}

/// The choices in a term.
fn choices(term: &Term) -> Vec<Choice> {
    let mut found = Vec::new();
    let end = find_choices(term.words(), 0, [false; 2], &mut found);
    assert_eq!(end, term.words().len());
    found
}

/// Finds the choices in the term that begins at a place, and where that term ends. Not and plus may stand
/// around it.
fn find_choices(words: &[u32], at: usize, around: [bool; 2], found: &mut Vec<Choice>) -> usize {
    let operator = words[at] >> 24;
    let [in_not, in_plus] = [around[0] || operator == NOT, around[1] || operator == PLUS];
    let mut next = at + 1;
    for side in 0..sides(operator) {
        if operator >= BOTH && words[next] >> 24 == EITHER {
            found.push(Choice { operator, side, in_not, in_plus });
        }
        next = find_choices(words, next, [in_not, in_plus], found);
    }
    next
}

/// How many words each alternative of the term has that begins here, which is taken off the words.
fn alternative_lengths(words: &mut std::slice::Iter<u32>) -> Vec<usize> {
    let kind = words.next().expect("a word") >> 24;
    match kind {
        NOT | PLUS => vec![1 + whole_length(&alternative_lengths(words))],
        EITHER => [alternative_lengths(words), alternative_lengths(words)].concat(),
        BOTH..=APART => {
            let (left, right) = (alternative_lengths(words), alternative_lengths(words));
            left.iter().flat_map(|one| right.iter().map(move |other| 1 + one + other)).collect()
        }
        _ => vec![1],
    }
}

/// How many words alternatives have together, with an either between each and the next.
fn whole_length(alternatives: &[usize]) -> usize {
    alternatives.iter().sum::<usize>() + alternatives.len() - 1
}

/// A random term of so many words, a unit term if that is asked for.
fn random(numbers: &mut Random, words: u32, unit: bool) -> Term {
    let made = match words {
        1 => match numbers.below(4) {
            0 => Ok(Term::everyone()),
            1 => Term::set(&[numbers.byte(USERS), numbers.byte(USERS)]),
            _ => Term::role(numbers.byte(ROLES)),
        },
        2 => random_over(numbers, words, unit),
        _ if numbers.below(5) == 0 => random_over(numbers, words, unit),
        _ => {
            let operators =
                [Term::either, Term::either, Term::both, Term::both, Term::together, Term::apart];
            let operator = operators[numbers.below(if unit { 4 } else { 6 }) as usize];
            let first = 1 + numbers.below(words - 2);
            let left = random(numbers, first, unit);
            operator(left, random(numbers, words - 1 - first, unit))
        }
    };
    made.expect("it can be made")
}

/// A random term of so many words that begins with not or plus.
fn random_over(numbers: &mut Random, words: u32, unit: bool) -> Result<Term, Refusal> {
    let inner = random(numbers, words - 1, true);
    if unit || numbers.below(2) == 0 {
        Term::not(inner)
    } else {
        Term::plus(inner)
    }
}

/// What both forms of a policy are opened with beside their words.
struct Setting {
    rows: [u16; USERS as usize],
    secure: Option<SecureWorkflow>,
}

impl Setting {
    /// Random roles, now and then one that is not declared, and each third time permissions and a
    /// workflow.
    fn random(numbers: &mut Random) -> Setting {
        let mut rows = [0; USERS as usize];
        rows.fill_with(|| (numbers.below(8) | numbers.below(8)) as u16);
        if numbers.below(30) == 0 {
            rows[0] = 1 << ROLES;
        }
        let secure = (numbers.below(3) == 0).then(|| random_secure(numbers));
        Setting { rows, secure }
    }

    /// Opens a policy.
    fn open(&self, policy: &Term) -> Result<Monitor, Refusal> {
        Monitor::open_with(USERS, ROLES, policy.words(), &self.rows, self.secure.as_ref())
    }
}

/// Random permissions, now and then for too many roles, and a random workflow, in which most actions
/// lead on.
fn random_secure(numbers: &mut Random) -> SecureWorkflow {
    let roles = if numbers.below(10) == 0 { ROLES + 1 } else { ROLES };
    let mut permissions = Permissions::new(roles).expect("they are in form");
    for role in 0..roles {
        let given: Vec<u8> = (0..ACTIONS).filter(|_| numbers.below(4) != 0).collect();
        permissions = permissions.give(role, &given).expect("it is in form");
    }
    let states = 1 + numbers.byte(3);
    let mut workflow = Workflow::new(states).expect("it is in form");
    for state in 0..states {
        for action in (0..ACTIONS).filter(|_| numbers.below(4) != 0).collect::<Vec<u8>>() {
            let next = numbers.byte(states);
            workflow = workflow.transition(state, action, next).expect("it is in form");
        }
        if numbers.below(2) == 0 {
            workflow = workflow.finish_in(state).expect("it is in form");
        }
    }
    SecureWorkflow::new(permissions, workflow)
}

/// A random event: mostly an action, now and then a word that is no event's.
fn random_event(numbers: &mut Random) -> u32 {
    let (user, role) = (numbers.byte(USERS), numbers.byte(ROLES));
    match numbers.below(12) {
        0 => Event::Grant { user, role }.word(),
        1 => Event::Revoke { user, role }.word(),
        2 => Event::Close.word(),
        3 => {
            let undeclared = Event::Action { user: USERS, number: 0 }.word();
            [0, 0x0500_0000, 0x0401_0000, undeclared][numbers.below(4) as usize]
        }
        _ => Event::Action { user, number: numbers.byte(ACTIONS) }.word(),
    }
}

/// Leaves in a workspace what some other policy says of some other actions.
fn litter(workspace: &mut Workspace, numbers: &mut Random) {
    let words = 1 + numbers.below(9);
    let policy = random(numbers, words, false);
    let mut counts = [0; 16];
    counts[..usize::from(USERS)].fill_with(|| numbers.byte(3));
    satisfies(USERS, ROLES, policy.words(), &[7; USERS as usize], &counts, workspace)
        .expect("at most eight actions are judged");
}

/// Who may act with each number.
fn may_act(monitor: &Monitor, workspace: &mut Workspace) -> [u16; ACTIONS as usize] {
    std::array::from_fn(|action| {
        let users = monitor.enabled(action as u8, workspace);
        users.expect("it is well formed").bits()
    })
}

/// The answers that both forms of a policy give to an opening and to random events, each form with its own
/// workspace: number and status, or `-` where nothing was opened. They must be the same.
fn same_answers(policies: [&Term; 2], setting: &Setting, numbers: &mut Random) -> Vec<(u8, char)> {
    let [one, other] = policies.map(|policy| setting.open(policy));
    let (mut one, mut other) = match (one, other) {
        (Ok(one), Ok(other)) => (one, other),
        refused => {
            let refused = (number(refused.0), number(refused.1));
            assert_eq!(refused.0, refused.1, "{policies:?}");
            return vec![(refused.0, '-')];
        }
    };
    assert_eq!([one.status(), other.status()], [Ok(Status::Open); 2]);
    let (mut workspace, mut littered) = (marked(), Workspace::new());
    let mut answers = vec![(0, 'o')];
    for _ in 0..14 {
        litter(&mut littered, numbers);
        let word = random_event(numbers);
        let answer = step(&mut one, word, &mut workspace);
        let [first, second] = policies;
        assert_eq!(step(&mut other, word, &mut littered), answer, "{word:08x}: {first}, {second}");
        assert_eq!(may_act(&one, &mut workspace), may_act(&other, &mut littered));
        assert_eq!((one.actions().len(), one.state()), (other.actions().len(), other.state()));
        answers.push(answer);
    }
    answers
}

/// Each of these occurred more often than that.
fn occurred<K: Ord + Debug>(counts: &BTreeMap<K, u32>, keys: &[K], least: u32) {
    for key in keys {
        let count = counts.get(key).copied().unwrap_or(0);
        assert!(count > least, "{key:?}: {count} of {counts:?}");
    }
}

/// The answers under a policy's text to these actions, where the users hold these roles.
fn answers(text: &str, rows: &[u16], users: &[u8]) -> Vec<(u8, char)> {
    let policy = term(text);
    let mut monitor =
        Monitor::open(rows.len() as u8, 3, policy.words(), rows).expect("it is accepted");
    let mut workspace = Workspace::new();
    let action = |user: &u8| Event::Action { user: *user, number: 0 }.word();
    users.iter().map(|user| step(&mut monitor, action(user), &mut workspace)).collect()
}

#[test]
fn each_operator_spreads_on_each_side() {
    for operator in ["with", "apart", "both"] {
        let is = |joint: &str, whole: &str| {
            let [joint, whole] = [joint, whole].map(|text| text.replace("op", operator));
            assert_eq!(split(&joint), whole);
            assert_eq!(split(&whole), whole);
        };
        is("(r0 op (r1 or r2))", "((r0 op r1) or (r0 op r2))");
        is("((r1 or r2) op r0)", "((r1 op r0) or (r2 op r0))");
        is(
            "((r0 or r1) op (r1 or r2))",
            "(((r0 op r1) or (r0 op r2)) or ((r1 op r1) or (r1 op r2)))",
        );
        is("(r0 op (r1 or (r2 or all)))", "((r0 op r1) or ((r0 op r2) or (r0 op all)))");
        is("((r0 op (r1 or r2)) op all)", "(((r0 op r1) op all) or ((r0 op r2) op all))");
        is("({0} or (r0 op (r1 or r2)))", "({0} or ((r0 op r1) or (r0 op r2)))");
    }
}

#[test]
fn choices_are_split_inside_not_and_plus() {
    assert_eq!(split("not (r0 both (r1 or r2))"), "not ((r0 both r1) or (r0 both r2))");
    assert_eq!(split("plus ((r1 or r2) both r0)"), "plus ((r1 both r0) or (r2 both r0))");
    assert_eq!(
        split("(r0 apart plus not ((r1 or r2) both r0))"),
        "(r0 apart plus not ((r1 both r0) or (r2 both r0)))"
    );
}

#[test]
fn what_has_nothing_to_split_stays() {
    for text in [
        "all",
        "(r0 or (r1 with r2))",
        "((r0 apart r1) or (r0 apart r2))",
        "plus (r1 or r2)",
        "(r0 with plus (r1 or r2))",
        "(r0 both not (r1 or r2))",
    ] {
        assert_eq!(split(text), text);
    }
}

#[test]
fn thirty_one_words_are_the_most() {
    let counters =
        (0..6).fold(term("r0"), |all, _| Term::together(term("r0"), all).expect("short"));
    let apart_from = |choice: &str| Term::apart(counters, term(choice)).expect("short");
    assert_eq!(counters.words().len(), 13);
    let longest = apart_from("(r1 or r2)").alternatives();
    assert_eq!(longest.map(|term| term.words().len()), Ok(MAX_WORDS));
    for choice in ["(r1 or not r2)", "(not r1 or r2)", "(r1 or (r2 or all))"] {
        assert_eq!(apart_from(choice).alternatives(), Err(Refusal::WordCount));
    }
    let within = Term::not(term("(r0 both (r1 or r2))")).expect("short");
    let beside = (0..7).fold(within, |all, _| Term::together(all, term("not r0")).expect("short"));
    assert_eq!(beside.words().len(), 27);
    assert_eq!(beside.alternatives().map(|term| term.words().len()), Ok(29));
    let beside = Term::apart(beside, term("not not r0")).expect("31 words");
    assert_eq!(beside.alternatives(), Err(Refusal::WordCount));
}

#[test]
fn words_that_are_too_many_are_refused_with_1() {
    let counters =
        (0..7).fold(term("r0"), |all, _| Term::together(term("r0"), all).expect("short"));
    let joint = Term::apart(counters, term("(r1 or r2)")).expect("short");
    assert_eq!(joint.alternatives(), Err(Refusal::WordCount));
    let one = |other: &str| Term::apart(counters, term(other)).expect("short");
    let whole = [&[EITHER << 24], one("r1").words(), one("r2").words()].concat();
    assert_eq!((joint.words().len(), whole.len()), (19, 35));
    assert_eq!(number(Monitor::open(3, 3, joint.words(), &[1, 2, 4])), 0);
    assert_eq!(number(Monitor::open(3, 3, &whole, &[1, 2, 4])), 1);
}

#[test]
fn no_choice_is_left() {
    let mut numbers = Random(1);
    let mut made = BTreeMap::new();
    for _ in 0..20_000 {
        let words = 1 + numbers.below(MAX_WORDS as u32);
        let policy = random(&mut numbers, words, false);
        let length = whole_length(&alternative_lengths(&mut policy.words().iter()));
        let whole = policy.alternatives();
        if let Ok(whole) = whole {
            assert_eq!(whole.words().len(), length, "{policy}");
            assert_eq!(choices(&whole), [], "{policy}");
            assert_eq!(whole.alternatives(), Ok(whole));
            // all of a term is compared: its words, and whether it is a unit term
            assert_eq!(Term::try_from(whole.words()), Ok(whole));
            assert_eq!(choices(&policy).is_empty(), whole == policy, "{policy}");
        } else {
            assert_eq!(whole, Err(Refusal::WordCount), "{policy}");
            assert!(length > MAX_WORDS, "{policy}");
        }
        *made.entry((number(whole), whole == Ok(policy))).or_insert(0) += 1;
    }
    occurred(&made, &[(0, true), (0, false), (1, false)], 2000);
}

#[test]
fn every_run_is_answered_alike() {
    let mut numbers = Random(2);
    let (mut pairs, mut split, mut told) = (BTreeMap::new(), BTreeMap::new(), BTreeMap::new());
    for _ in 0..12_000 {
        let words = 3 + numbers.below(20);
        let policy = random(&mut numbers, words, false);
        let Ok(whole) = policy.alternatives() else {
            continue;
        };
        // what is the same policy again tells nothing
        if whole == policy {
            continue;
        }
        let setting = Setting::random(&mut numbers);
        let answers = same_answers([&policy, &whole], &setting, &mut numbers);
        *pairs.entry(setting.secure.is_some()).or_insert(0) += 1;
        choices(&policy).into_iter().for_each(|choice| *split.entry(choice).or_insert(0) += 1);
        answers.into_iter().for_each(|answer| *told.entry(answer).or_insert(0) += 1);
    }
    occurred(&pairs, &[false, true], 1000);
    for side in [0, 1] {
        let choice = |operator, in_not, in_plus| Choice { operator, side, in_not, in_plus };
        let anywhere = [TOGETHER, APART, BOTH].map(|operator| choice(operator, false, false));
        let around = [(true, false), (false, true), (true, true)];
        occurred(&split, &anywhere, 100);
        occurred(&split, &around.map(|(not, plus)| choice(BOTH, not, plus)), 50);
    }
    let open = [0, 7, 9, 11, 16, 17].map(|number| (number, 'o'));
    let complete = [0, 7, 9, 11, 16, 17].map(|number| (number, 'c'));
    occurred(&told, &[&open[..], &complete, &[(0, 'd'), (10, 'd')]].concat(), 100);
    occurred(&told, &[(6, '-'), (19, '-')], 20);
}

#[test]
fn plus_does_not_spread() {
    let rows = [0b010, 0b100];
    let one = answers("plus (r1 or r2)", &rows, &[0, 1]);
    let other = answers("(plus r1 or plus r2)", &rows, &[0, 1]);
    assert_eq!(one, [(0, 'c'), (0, 'c')]);
    assert_eq!(other, [(0, 'c'), (9, 'c')]);
}

#[test]
fn either_does_not_spread_over_together() {
    let one = answers("(r0 or (r1 with r2))", &[0b001], &[0]);
    let other = answers("((r0 or r1) with (r0 or r2))", &[0b001], &[0]);
    assert_eq!((one, other), (vec![(0, 'c')], vec![(0, 'o')]));
}

#[test]
fn apart_does_not_become_together() {
    let of = |text: &str| answers(text, &[0b011], &[0, 0]);
    let [joint, whole] = ["(r0 apart (r1 or r2))", "((r0 apart r1) or (r0 apart r2))"];
    assert_eq!(split(joint), whole);
    assert_eq!([of(joint), of(whole)], [[(0, 'o'), (9, 'o')]; 2]);
    assert_eq!(of("((r0 with r1) or (r0 with r2))"), [(0, 'o'), (0, 'c')]);
}

#[test]
fn the_normal_forms_differ() {
    let normal = |policy: &Term| {
        let mut out = [0; MAX_WORDS];
        normal_form(3, 3, policy.words(), &mut out).expect("it is accepted").to_vec()
    };
    let joint = term("(r0 with (r1 or r2))");
    let whole = joint.alternatives().expect("it is short");
    assert_eq!([normal(&joint), normal(&whole)], [joint.words(), whole.words()]);
    assert_ne!(normal(&joint), normal(&whole));
}
