//! The inputs: policies, taken actions, and what is asked.

use std::collections::BTreeSet;

use oskhrein::{Event, MAX_ROLES};
use reference::policy::{met_bits, ones, read_term};
use reference::text::text_of;

/// Kinds of policy words.
const EVERYONE: u32 = 1 << 24;
const ROLE: u32 = 2 << 24;
const SET: u32 = 3 << 24;
const NOT: u32 = 4 << 24;
const PLUS: u32 = 5 << 24;
const EITHER: u32 = 6 << 24;
const BOTH: u32 = 7 << 24;
/// The actions fall into two parts.
pub const TOGETHER: u32 = 8 << 24;
/// As together, and the parts share no user.
pub const APART: u32 = 9 << 24;

/// How many users are declared, and how many roles unless a case says otherwise.
const USERS: u8 = 16;
const ROLES: u8 = 8;

/// The user who holds no role.
const OUTSIDER: u8 = USERS - 1;

/// What is asked.
#[derive(Clone)]
pub enum Job {
    /// An event by its word.
    Event(u32),
    /// One that leaves the monitor as it was, which is then not copied for each run.
    Refused(u32),
    /// The status.
    Status,
    /// Who may execute the action with this number.
    Enabled(u8),
    /// Whether the multiset with these counts satisfies the policy.
    Multiset([u8; 16]),
    /// The normal form of the policy.
    NormalForm,
    /// The opening.
    Open,
    /// The words of this text.
    Read(Vec<u8>),
    /// The text of the policy.
    Write,
}

/// A policy with its name, and the roles of its users.
#[derive(Clone)]
pub struct Policy {
    /// Its name in the table.
    pub name: &'static str,
    /// Its words.
    pub words: Vec<u32>,
    /// The roles of each user.
    pub rows: Vec<u16>,
}

/// Permissions and a workflow in bytes, and the state that the workflow is in.
#[derive(Clone)]
pub struct Order {
    /// Eight bytes a role.
    pub permissions: Vec<u8>,
    /// The workflow.
    pub workflow: Vec<u8>,
    /// The present state.
    pub state: u8,
}

/// One row of a table.
#[derive(Clone)]
pub struct Case {
    /// What is measured.
    pub what: String,
    /// How many roles are declared.
    pub roles: u8,
    /// The policy.
    pub policy: Policy,
    /// How many actions are judged; for calls that judge none and for who may act, how many are taken;
    /// of a text, how many bytes it has.
    pub actions: usize,
    /// How many users act.
    pub acting: usize,
    /// The users of the actions taken before.
    pub taken: Vec<u8>,
    /// What is asked.
    pub job: Job,
    /// Permissions and workflow, if they are given.
    pub order: Option<Order>,
}

/// A balanced tree over operands. Every fifth operator is an either.
fn tree(operator: u32, operands: &[Vec<u32>], operators: &mut usize) -> Vec<u32> {
    if let [operand] = operands {
        return operand.clone();
    }
    *operators += 1;
    let kind = if operators.is_multiple_of(5) { EITHER } else { operator };
    let (left, right) = operands.split_at(operands.len() / 2);
    let mut words = vec![kind];
    words.extend(tree(operator, left, operators));
    words.extend(tree(operator, right, operators));
    words
}

/// A policy made to measure: of 3 words, two roles joined; or of 4, 7, 10, .. words, a tree of one
/// operator in which all but one of the operands are a plus over a role. Each user holds one role
/// that every longer policy asks for, and one more; the last user holds none.
pub fn made(operator: u32, words: usize) -> Policy {
    let role = |place: usize| ROLE | (place % usize::from(ROLES)) as u32;
    let mut operands: Vec<Vec<u32>> = (0..words / 3).map(|place| vec![PLUS, role(place)]).collect();
    operands.push(vec![role(words / 3)]);
    if words == 3 {
        operands = vec![vec![role(0)], vec![role(1)]];
    }
    let held = |user: u8| 1 << (user % 3) | 1 << (3 + user % 5);
    Policy {
        name: if operator == APART { "mostly apart" } else { "mostly together" },
        words: tree(operator, &operands, &mut 0),
        rows: (0..USERS).map(|user| if user < OUTSIDER { held(user) } else { 0 }).collect(),
    }
}

/// A policy as people write it; the users' roles are those of the first few, again and again.
fn written(name: &'static str, words: &[u32], roles: &[u16]) -> Policy {
    let rows = roles.iter().cycle().take(USERS.into()).copied().collect();
    Policy { name, words: words.to_vec(), rows }
}

/// One user signs for role 0, another for role 1.
fn two_signatures() -> Policy {
    written("two signatures", &[APART, ROLE, ROLE | 1], &[1, 2])
}

/// Three different users sign, one for each role.
fn three_signatures() -> Policy {
    let words = [APART, ROLE, APART, ROLE | 1, ROLE | 2];
    written("three signatures", &words, &[1, 2, 4])
}

/// Some users prepare, others approve, each as often as needed.
fn four_eyes() -> Policy {
    written("four eyes, plus", &[APART, PLUS, ROLE, PLUS, ROLE | 1], &[1, 2])
}

/// Document 01's policy F (Example 3 of document 004).
fn policy_f() -> Policy {
    let signed = [APART, ROLE, EITHER, ROLE | 2, APART, ROLE, ROLE];
    let words = [&[TOGETHER], &signed[..], &[PLUS, EVERYONE]].concat();
    written("01's F", &words, &[1, 4, 1, 2, 1])
}

/// A large licensee: a clerk, as somebody else who prices and is not of the lawyers, as others again
/// a manager or two accountants, and one or more actions by lawyers; besides, notes by anybody who
/// is not external.
fn licensee() -> Policy {
    let prepared = [APART, ROLE, BOTH, ROLE | 1, NOT, ROLE | 4];
    let approved = [APART, EITHER, ROLE | 2, APART, ROLE | 3, ROLE | 3, PLUS, ROLE | 4];
    let notes = [PLUS, BOTH, EVERYONE, NOT, ROLE | 5];
    let words = [&[TOGETHER, APART], &prepared[..], &approved[..], &notes[..]].concat();
    written("licensee", &words, &[1, 2, 4, 16, 8])
}

impl Case {
    /// A case with so many actions, by so many users in turn.
    pub fn new(what: &'static str, policy: Policy, actions: usize, acting: usize) -> Case {
        let mut users: Vec<u8> = (0..actions).map(|place| (place % acting) as u8).collect();
        let mut counts = [0; 16];
        users.iter().for_each(|user| counts[usize::from(*user)] += 1);
        let job = match what {
            "event: action" => Job::Event(action(users.pop().unwrap_or(0))),
            "event: outsider" => {
                users.pop();
                Job::Event(action(OUTSIDER))
            }
            "event: grant" => Job::Event(Event::Grant { user: 0, role: ROLES - 1 }.word()),
            "close" => Job::Event(CLOSE),
            "status" => Job::Status,
            "enabled" => Job::Enabled(0),
            "multiset" => Job::Multiset(counts),
            "normal form" => Job::NormalForm,
            _ => Job::Open,
        };
        let (what, acting) = (what.to_string(), acting.min(actions));
        Case { what, roles: ROLES, policy, actions, acting, taken: users, job, order: None }
    }

    /// Who may act after so many actions, by so many users in turn.
    fn enabled(policy: Policy, actions: usize, acting: usize) -> Case {
        let case = Case::new("enabled", policy, actions, acting);
        Case { what: format!("enabled: {} kinds", case.kinds()), ..case }
    }

    /// The same case with an action by the last user asked for.
    pub fn last_action(&self) -> Case {
        Case { job: Job::Event(action(USERS - 1)), ..self.clone() }
    }

    /// How many kinds of users there are: each who has acted is one, and so are all others for whom
    /// the same would be noted.
    pub fn kinds(&self) -> usize {
        let Policy { words, rows, .. } = &self.policy;
        let term = read_term(USERS.into(), self.roles.into(), words).expect("it is accepted");
        let others = (0..USERS).filter(|user| !self.taken.contains(user)).map(usize::from);
        let noted: BTreeSet<u32> =
            others.map(|user| met_bits(&term, user, &ones(rows[user]))).collect();
        self.acting + noted.len()
    }

    /// Permissions and workflow as an opening is given them.
    pub fn given(&self) -> (&[u8], &[u8]) {
        self.order.as_ref().map_or((&[], &[]), |order| (&order.permissions, &order.workflow))
    }

    /// The same case without permissions and workflow.
    pub fn bare(&self) -> Case {
        Case { order: None, ..self.clone() }
    }

    /// The same case with the test of 15 alone asked for; in place of an event it has, as that one, a copy
    /// of the monitor made first.
    pub fn tested(&self) -> Case {
        let job = match self.job {
            Job::Event(_) => Job::Event(OUT_OF_LAYOUT),
            _ => Job::Refused(OUT_OF_LAYOUT),
        };
        Case { job, ..self.clone() }
    }

    /// Whether the status that a monitor keeps decides: it is asked for, or the word is of a close's
    /// kind.
    pub fn goes_by_status(&self) -> bool {
        match self.job {
            Job::Status => true,
            Job::Event(word) | Job::Refused(word) => word >> 24 == CLOSE >> 24,
            _ => false,
        }
    }

    /// How many users are declared.
    pub fn users(&self) -> u8 {
        USERS
    }

    /// Its name: what is asked, the policy, its words, the actions or bytes, and the users who act.
    pub fn name(&self) -> [String; 5] {
        let Case { what, policy, actions, acting, .. } = self;
        let [words, actions, acting] =
            [policy.words.len(), *actions, *acting].map(|number| number.to_string());
        [what.clone(), policy.name.to_string(), words, actions, acting]
    }
}

/// The word of an action.
pub const fn action(user: u8) -> u32 {
    numbered(user, 0)
}

/// The word of an action with this number.
pub const fn numbered(user: u8, number: u8) -> u32 {
    Event::Action { user, number }.word()
}

/// The word of a close, and one of its kind that is out of layout: on a well-formed monitor that is not
/// closed it is answered 7, and asks for nothing but 15, 10 and 7.
const CLOSE: u32 = Event::Close.word();
const OUT_OF_LAYOUT: u32 = CLOSE | 1;

/// The action that the last transition of a workflow has in its last state, one that no transition has
/// there, and one that no role gives.
const DUE: u8 = 3;
const NOT_DUE: u8 = 4;
const NOT_GIVEN: u8 = 5;

/// A workflow of 64 transitions, four in each of 16 states, in its last state, which is final, under
/// permissions by which, of so many roles, these give all of its actions. The transition for the action
/// that is due comes last.
fn order(roles: u8, giving: u16) -> Order {
    let transitions = (0..64u8).flat_map(|place| [place / 4, place % 4, (place / 4 + 1) % 16]);
    let row = |role: u8| if giving >> role & 1 == 1 { 1u64 << NOT_DUE | 0b1111 } else { 0 };
    Order {
        permissions: (0..roles).flat_map(|role| row(role).to_le_bytes()).collect(),
        workflow: [16, 64, 0, 0x80].into_iter().chain(transitions).collect(),
        state: 15,
    }
}

/// The user of an event's word.
fn user_of(word: u32) -> u8 {
    (word >> 8) as u8
}

impl Case {
    /// The same case under such an order, with this action in place of the one asked for.
    fn ordered(self, what: &str, giving: u16, number: u8) -> Case {
        let job = match self.job {
            Job::Event(word) if word != CLOSE => Job::Event(numbered(user_of(word), number)),
            Job::Enabled(_) => Job::Enabled(number),
            other => other,
        };
        Case { what: what.to_string(), job, order: Some(order(self.roles, giving)), ..self }
    }
}

/// How many actions are judged where none, four, eight and eleven are taken.
const JUDGED: [usize; 4] = [1, 5, 9, 12];

/// All roles, and the one that three users hold under policies made to measure.
const ALL_ROLES: u16 = 0xff;
const FEW: u16 = 1 << 7;

/// The rows of the table of permissions and workflows.
pub fn ordered() -> Vec<Case> {
    let mut cases = Vec::new();
    for policy in [licensee(), made(APART, 10), made(APART, 31)] {
        for actions in JUDGED {
            let case = Case::new("event: action", policy.clone(), actions, ACTING);
            cases.push(case.ordered("event: action", ALL_ROLES, DUE));
        }
    }
    for words in [3, 31] {
        cases.push(
            Case::new("opening", made(APART, words), 0, 0).ordered("opening", ALL_ROLES, DUE),
        );
    }
    for actions in [1, 12] {
        let case = Case::new("event: action", made(APART, 31), actions, ACTING);
        cases.push(case.clone().ordered("event: refused 16", ALL_ROLES, NOT_GIVEN));
        cases.push(case.ordered("event: refused 17", ALL_ROLES, NOT_DUE));
    }
    for taken in TAKEN {
        let case = Case::enabled(made(APART, 31), taken, ACTING);
        cases.push(case.clone().ordered("enabled: few are permitted", FEW, DUE));
        cases.push(case.clone().ordered("enabled: all but one are permitted", ALL_ROLES, DUE));
        cases.push(case.ordered("enabled: nobody is permitted", ALL_ROLES, NOT_GIVEN));
    }
    cases
}

/// How many users act, unless a case says otherwise.
pub const ACTING: usize = 7;

/// Policies as people write them, with actions by two to five users.
fn as_written() -> Vec<Case> {
    let few = [
        (two_signatures(), 2, 2),
        (three_signatures(), 3, 3),
        (four_eyes(), 4, 2),
        (policy_f(), 4, 3),
        (policy_f(), 8, 4),
        (licensee(), 5, 5),
        (licensee(), 8, 5),
    ];
    let mut cases: Vec<Case> = few
        .into_iter()
        .map(|(policy, actions, acting)| Case::new("event: action", policy, actions, acting))
        .collect();
    for policy in [four_eyes(), policy_f(), licensee()] {
        for acting in 2..=5 {
            cases.push(Case::new("event: action", policy.clone(), 12, acting));
        }
    }
    cases
}

/// The roles that users hold in turn where all are alike, where they are of three kinds, and where
/// as many differ as the policy tells apart. The last user holds some role that it asks for.
struct Staff {
    alike: u16,
    three: [u16; 3],
    different: [u16; USERS as usize],
}

/// Under policies made to measure: all roles; one of three and one more; any of roles 0 to 3, each
/// with the one four above it.
const MADE: Staff = Staff {
    alike: 0xff,
    three: [0x09, 0x12, 0x24],
    different: [
        0xff, 0xee, 0xdd, 0xcc, 0xbb, 0xaa, 0x99, 0x88, 0x77, 0x66, 0x55, 0x44, 0x22, 0x11, 0x00,
        0x33,
    ],
};

/// Under the licensee's: clerks, pricers, managers and accountants, lawyers too, nobody external.
const LICENSED: Staff = Staff {
    alike: 0x0f,
    three: [0x01, 0x02, 0x04],
    different: [
        0x01, 0x02, 0x04, 0x10, 0x08, 0x03, 0x05, 0x09, 0x11, 0x06, 0x0a, 0x12, 0x0c, 0x14, 0x18,
        0x07,
    ],
};

/// How many actions are taken when it is asked who may act.
const TAKEN: [usize; 4] = [1, 4, 8, 11];

/// Who may act under a policy, by how many users act and how far the users differ.
fn by_kinds(policy: &Policy, staff: &Staff) -> Vec<Case> {
    let Staff { alike, three, different } = staff;
    let (alike, three, different) = (&[*alike][..], &three[..], &different[..]);
    let mut cases = Vec::new();
    for (least, acting, roles) in [(1, 1, alike), (1, 1, three), (3, 3, alike), (1, 11, different)]
    {
        let policy = written(policy.name, &policy.words, roles);
        for taken in TAKEN.into_iter().filter(|taken| *taken >= least) {
            cases.push(Case::enabled(policy.clone(), taken, acting));
        }
    }
    cases
}

/// Who may act where all users differ and the last one, by whose action an event is measured, holds
/// no role.
fn outsider_last(policy: &Policy, staff: &Staff) -> Vec<Case> {
    let mut roles = staff.different;
    roles[14..].rotate_left(1);
    let policy = written(policy.name, &policy.words, &roles);
    let what = "enabled: outsider last".to_string();
    let case = |taken| Case { what: what.clone(), ..Case::enabled(policy.clone(), taken, 11) };
    TAKEN.map(case).into()
}

/// The rows of the table of who may act.
pub fn enabled() -> Vec<Case> {
    let mut cases = by_kinds(&licensee(), &LICENSED);
    for operator in [TOGETHER, APART] {
        for words in [3, 10, 31] {
            cases.extend(by_kinds(&made(operator, words), &MADE));
        }
    }
    for operator in [TOGETHER, APART] {
        cases.extend(outsider_last(&made(operator, 31), &MADE));
    }
    cases
}

/// The rows of the table of status and close: 16 roles, each size without permissions and workflow,
/// then with both. The number that a close is answered goes with the size.
pub fn by_status() -> Vec<Case> {
    let sizes = [
        (two_signatures(), 2, 2, "close: 0"),
        (policy_f(), 4, 3, "close: 0"),
        (licensee(), 5, 5, "close: 0"),
        (made(APART, 31), 0, ACTING, "close: 11"),
        (made(APART, 31), 4, ACTING, "close: 11"),
        (made(APART, 31), 12, ACTING, "close: 11"),
        (made(APART, 31), 12, 12, "close: 0"),
    ];
    let rows = |call: &'static str| {
        sizes.clone().into_iter().flat_map(move |(policy, actions, acting, closed)| {
            let case = Case::new(call, policy, actions, acting);
            let what = if call == "close" { closed } else { call };
            let case = Case { what: what.to_string(), roles: MAX_ROLES as u8, ..case };
            [case.clone(), case.ordered(&format!("{what}, workflow"), u16::MAX, DUE)]
        })
    };
    rows("status").chain(rows("close")).collect()
}

/// The test of 15 alone, for each size in that table.
fn tests_alone() -> Vec<Case> {
    let asked = by_status().into_iter().filter(|case| matches!(case.job, Job::Status));
    asked.map(|case| Case { what: case.what.replace("status", "15"), ..case.tested() }).collect()
}

/// The opening whose policy the refused ones are made from.
pub fn accepted() -> Case {
    Case::new("opening", made(APART, 31), 0, 0)
}

/// The rows of the table of refused policies: each number with its fault as early as can be, and far
/// behind.
pub fn refused() -> Vec<Case> {
    let with = |place: usize, word: u32| {
        let mut words = made(APART, 31).words;
        words[place] = word;
        words
    };
    let shorter = made(APART, 28).words;
    let (last, before) = shorter.split_last().expect("it has words");
    let policies = [
        ("1 at 0", [made(APART, 31).words, vec![EVERYONE]].concat()),
        ("2 at 0", with(0, ROLE | u32::from(ROLES))),
        ("2 at 30", with(30, ROLE | u32::from(ROLES))),
        ("3 at 1", with(0, ROLE)),
        ("3 at 31", with(30, NOT)),
        ("4 at 0", [&[NOT; 3], &shorter[..]].concat()),
        ("4 at 27", [before, &[PLUS; 3], &[*last]].concat()),
    ];
    let case = |(fault, words)| {
        let policy = Policy { words, ..made(APART, 31) };
        Case { what: format!("refused: {fault}"), policy, ..accepted() }
    };
    policies.map(case).into()
}

/// A policy of 31 words whose text is the longest: sets of all users, apart.
fn sets() -> Policy {
    let words = [vec![APART; 15], vec![SET | 0xffff; 16]].concat();
    written("sets of 16 users, apart", &words, &[1])
}

/// So many nots over a role.
fn nots(count: usize) -> Policy {
    written("nots over a role", &[vec![NOT; count], vec![ROLE]].concat(), &[1])
}

/// The text of an accepted policy.
fn text(policy: &Policy) -> Vec<u8> {
    let term = read_term(USERS.into(), ROLES.into(), &policy.words).expect("it is accepted");
    text_of(&term)
}

/// Reading a text that a policy has, or one that is made from it.
fn reading(what: &str, policy: Policy, text: Vec<u8>) -> Case {
    let (what, actions) = (what.to_string(), text.len());
    Case { what, actions, job: Job::Read(text), ..Case::new("", policy, 0, 0) }
}

/// The rows of the table of texts: policies of several shapes, then texts that are refused at once, at
/// their last byte, after as many openings as fit, and for a policy that is too long.
pub fn texts() -> Vec<Case> {
    let mut cases = Vec::new();
    let made = [1, 7, 31].map(|words| made(APART, words));
    let others = [nots(30), sets(), policy_f(), licensee()];
    for policy in made.into_iter().chain(others) {
        let read = reading("read", policy.clone(), text(&policy));
        let write = Case { what: "write".to_string(), job: Job::Write, ..read.clone() };
        cases.extend([read, write]);
    }
    let other_end = |policy: &Policy| {
        let mut text = text(policy);
        *text.last_mut().expect("it has bytes") = b']';
        text
    };
    let opened = [&b"policy: "[..], &[b'('; 1016]].concat();
    let long = [&b"policy: "[..], &b"not ".repeat(253), b"all"].concat();
    let nothing = |name| written(name, &[], &[1]);
    cases.extend([
        reading("read: refused 20", sets(), text(&sets())[1..].to_vec()),
        reading("read: refused 21", sets(), other_end(&sets())),
        reading("read: refused 21", nothing("parentheses"), opened),
        reading("read: refused 1", nothing("nots over everyone"), long),
    ]);
    cases
}

/// The rows of all tables.
pub fn all() -> Vec<Case> {
    [calls(), enabled(), refused(), ordered(), by_status(), tests_alone(), texts()].concat()
}

/// The rows of the table of calls; in each family the cases with more actions come later.
pub fn calls() -> Vec<Case> {
    let mut cases = as_written();
    for operator in [TOGETHER, APART] {
        for words in [3, 10, 31] {
            for actions in [1, 4, 8, 12] {
                cases.push(Case::new("event: action", made(operator, words), actions, ACTING));
            }
        }
    }
    for operator in [TOGETHER, APART] {
        for words in [10, 31] {
            cases.push(Case::new("event: outsider", made(operator, words), 12, ACTING));
        }
    }
    for operator in [TOGETHER, APART] {
        cases.push(Case::new("event: action", made(operator, 31), 12, 12));
    }
    for words in [3, 10, 31] {
        cases.push(Case::new("event: grant", made(APART, words), 11, ACTING));
    }
    for what in ["status", "multiset"] {
        for (words, actions) in [(10, 0), (10, 4), (10, 12), (31, 4), (31, 12)] {
            cases.push(Case::new(what, made(APART, words), actions, ACTING));
        }
    }
    for what in ["normal form", "opening"] {
        for words in [3, 10, 31] {
            cases.push(Case::new(what, made(APART, words), 0, ACTING));
        }
    }
    cases
}
