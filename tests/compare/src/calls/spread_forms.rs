//! Two forms of one policy, of which one becomes the other by spreading over either and gathering (02,
//! E9): the product answers the same for both, whatever the workspace held, and for each what the
//! reference does. A form of more than 31 words is refused with 1.

use oskhrein::raw::{Calls, Monitor};
use reference::casefile::Case;
use reference::code;
use reference::generate::spreading::pairs::{edges, random_pair, Pair};
use reference::generate::Random;
use reference::monitor::Taken;
use reference::multiset::open_multiset;
use reference::place::place_of;
use reference::policy::MOST_WORDS;
use reference::search::Search;
use reference::workspace::WORDS;

use crate::report::{Group, Seen};
use crate::spread::Forms;

/// What a byte for the place of a fault holds before a call.
const MARK: u8 = 0xa5;

/// What each word of the workspace holds before a call, for each form.
const JUNK: [u32; 2] = [0, u32::MAX];

/// The answers that must occur for pairs whose forms differ.
const WANTED: [u8; 16] = [0, 1, 6, 7, 8, 9, 10, 11, 16, 17, 19, b'c', b'd', b'n', b'o', b'y'];

/// What is answered for one form.
#[derive(Clone, Debug, PartialEq, Eq)]
struct Answers {
    /// The opening's number, and what it leaves in the byte for a place.
    opened: [u8; 2],
    /// The same of the multiset test.
    tested: [u8; 2],
    /// The status when opened and, for each event, its number and the status behind it; nothing after
    /// a refused opening.
    run: Vec<u8>,
}

impl Answers {
    /// Those for a form that has passed 31 words.
    fn too_long() -> Answers {
        let refused = [code::POLICY_LENGTH as u8, 0];
        Answers { opened: refused, tested: refused, run: vec![] }
    }

    /// Every number and letter.
    fn all(&self) -> impl Iterator<Item = u8> + '_ {
        [self.opened[0], self.tested[0]].into_iter().chain(self.run.iter().copied())
    }
}

/// The product's answers for a case; before each call the workspace is filled with junk.
fn answered(library: &Calls, case: &Case, counts: &[u8; 16], junk: u32) -> Answers {
    let Case { users, roles, policy, user_roles, .. } = case;
    let (users, roles, (permissions, workflow)) = (*users, *roles, case.given());
    let mut workspace = vec![junk; WORDS];
    let (mut monitor, mut place) = (Monitor::BLANK, MARK);
    let answer =
        library.satisfies(users, roles, policy, user_roles, counts, &mut workspace, &mut place);
    let tested = [answer, std::mem::replace(&mut place, MARK)];
    let answer = library.open(
        &mut monitor,
        users,
        roles,
        policy,
        user_roles,
        permissions,
        workflow,
        &mut place,
    );
    let mut run = Vec::new();
    if u32::from(answer) == code::ACCEPTED {
        run.push(library.status(&monitor));
        for word in &case.events {
            workspace.fill(junk);
            run.push(library.event(&mut monitor, *word, &mut workspace));
            run.push(library.status(&monitor));
        }
    }
    Answers { opened: [answer, place], tested, run }
}

/// The reference's answers for a case.
fn expected(case: &Case, counts: &[u8; 16]) -> Answers {
    let Case { users, roles, policy, user_roles, .. } = case;
    let (users, roles) = ((*users).into(), (*roles).into());
    let refused = |code| {
        let place = place_of(code, users, roles, policy);
        [code as u8, place.map_or(MARK, |place| place as u8)]
    };
    let tested = match open_multiset(users, roles, policy, user_roles, counts) {
        Ok((term, actions)) => {
            let yes = Search::new(&term).satisfied(&actions);
            [if yes { b'y' } else { b'n' }, MARK]
        }
        Err(code) => refused(code),
    };
    let mut grown = match case.open::<Taken>() {
        Ok(grown) => grown,
        Err(code) => return Answers { opened: refused(code), tested, run: vec![] },
    };
    let mut run = vec![grown.status() as u8];
    for word in &case.events {
        run.push(grown.step(*word).code as u8);
        run.push(grown.status() as u8);
    }
    Answers { opened: [code::ACCEPTED as u8, MARK], tested, run }
}

/// Both comparisons, with what occurred in pairs whose forms differ.
struct Compared {
    between: Group,
    each: Group,
    answers: Seen,
    forms: Forms,
}

/// Compares on the edges and on so many random pairs.
pub fn compare(library: &Calls, seed: u64, count: usize) -> ([Group; 2], [Seen; 2]) {
    let mut compared = Compared {
        between: Group::new("spread forms, one against the other"),
        each: Group::new("spread forms, each against the reference"),
        answers: Seen::new("spread forms", &WANTED),
        forms: Forms::new(),
    };
    for (name, pair) in edges() {
        compared.check(library, &name, &pair);
    }
    let mut random = Random::new(seed);
    for turn in 0..count {
        if compared.between.is_enough() || compared.each.is_enough() {
            break;
        }
        let pair = random_pair(&mut random);
        compared.check(library, &format!("random {turn} of seed {seed}"), &pair);
    }
    let Compared { between, each, answers, forms } = compared;
    ([between, each], [answers, forms.seen()])
}

impl Compared {
    /// One pair.
    fn check(&mut self, library: &Calls, label: &str, pair: &Pair) {
        let (cases, counts) = ([&pair.case, &pair.other()], &pair.counts);
        let [first, other] = [0, 1].map(|form| answered(library, cases[form], counts, JUNK[form]));
        let long = pair.form.term.length() > MOST_WORDS;
        let wanted = if long { Answers::too_long() } else { first.clone() };
        self.between.check(other == wanted, || {
            let words = &cases[1].policy;
            format!(
                "{label}\n  counts {counts:?}, (hex) {:x?}\n  got {first:?}
  other form (hex) {words:x?}\n  expected {wanted:?}\n  got {other:?}",
                cases[0]
            )
        });
        for (case, got) in cases.into_iter().zip([&first, &other]) {
            let expected = expected(case, counts);
            self.each.check(*got == expected, || {
                format!(
                    "{label}\n  counts {counts:?}, (hex) {case:x?}
  expected {expected:?}\n  got {got:?}"
                )
            });
        }
        if pair.term != pair.form.term {
            other.all().for_each(|answer| self.answers.count(answer));
            self.forms.count(pair);
        }
    }
}
