//! Runs in which the letter of the status comes and goes, or stays although today's roles would say
//! another one (02, E6).

use super::{run, NamedCase};
use crate::casefile::write_case;
use crate::examples::{action, grant, revoke, CLOSE};
use crate::generate::NamedFile;
use crate::policy::{Operator, Term};

/// A term with two sides.
fn join(operator: Operator, left: Term, right: Term) -> Term {
    Term::join(operator, left, right)
}

/// One action of a user with role 0, or three actions of which two are by others.
fn one_or_three() -> Term {
    let other = || Term::not(Term::Role(0));
    let two = join(Operator::Together, other(), other());
    join(Operator::Either, Term::Role(0), join(Operator::Together, Term::Everyone, two))
}

/// One action of a user who meets a unit term, or two of different users with these roles.
fn one_or_two(one: Term, [first, second]: [usize; 2]) -> Term {
    let two = join(Operator::Apart, Term::Role(first), Term::Role(second));
    join(Operator::Either, one, two)
}

/// Actions that complete, undo and complete again, with refusals in between.
fn coming_and_going() -> Vec<NamedCase> {
    let refused = [action(0), action(3), 0, CLOSE | 1, CLOSE | 1 << 16];
    let again = [&refused[..], &[action(1), CLOSE], &refused[1..], &[action(2)]].concat();
    let events = [&[CLOSE, action(0)], &again[..], &refused, &[CLOSE, CLOSE, CLOSE | 1]].concat();
    let full = [vec![action(0); 13], vec![CLOSE, action(1)]].concat();
    let never = join(Operator::Together, Term::plus(Term::Role(0)), Term::Role(1));
    vec![
        run("complete, open and complete again", one_or_three(), [1, 2, 4], &events),
        run("complete and full", Term::plus(Term::Everyone), [1, 2, 4], &full),
        run("open and full", never, [1, 2, 4], &full),
    ]
}

/// Grants and revocations after which today's roles would say another letter.
fn changing_roles() -> Vec<NamedCase> {
    let changed = |word: u32| [action(0), word, CLOSE];
    let without = Term::plus(Term::not(Term::Role(1)));
    let granted = one_or_two(Term::Role(1), [0, 2]);
    let revoked = one_or_two(Term::not(Term::Role(1)), [1, 2]);
    let later = [action(2), revoke(2, 2), grant(2, 1), CLOSE];
    let and_later = |word: u32| [&changed(word)[..], &later].concat();
    vec![
        run("c, then a revocation", Term::plus(Term::Role(0)), [1, 2, 4], &changed(revoke(0, 0))),
        run("c, then a grant", without, [1, 2, 4], &changed(grant(0, 1))),
        run("o, then a grant", granted, [1, 2, 4], &and_later(grant(0, 1))),
        run("o, then a revocation", revoked, [3, 2, 4], &and_later(revoke(0, 1))),
    ]
}

/// All of them.
pub fn runs() -> Vec<NamedCase> {
    [coming_and_going(), changing_roles()].concat()
}

/// All of them as files.
pub fn files() -> Vec<NamedFile> {
    runs().into_iter().map(|(name, case)| (name, write_case(&case))).collect()
}

#[cfg(test)]
mod tests {
    use super::*;
    use crate::casefile::run as judged;

    /// The numbers and letters of the run with this name.
    fn answers(wanted: &str) -> (Vec<u32>, String) {
        let (_, case) = runs().into_iter().find(|(name, _)| name == wanted).expect("there is one");
        judged(&case).expect("it opens").answers.into_iter().unzip()
    }

    #[test]
    fn the_letter_comes_and_goes() {
        let (codes, letters) = answers("complete, open and complete again");
        let (first, second) = ([11, 0, 9, 7, 7, 7, 7], [0, 11, 7, 7, 7, 7]);
        let third = [0, 9, 7, 7, 7, 7, 0, 10, 10];
        assert_eq!(codes, [&first[..], &second, &third].concat());
        assert_eq!(letters, ["occcccc", "oooooo", "ccccccddd"].concat());
        assert_eq!(answers("complete and full").1, "c".repeat(13) + "dd");
        assert_eq!(answers("open and full").1, "o".repeat(15));
    }

    #[test]
    fn the_letter_stays_where_roles_change() {
        for name in ["c, then a revocation", "c, then a grant"] {
            assert_eq!(answers(name), (vec![0, 0, 0], "ccd".to_string()), "{name}");
        }
        for name in ["o, then a grant", "o, then a revocation"] {
            let codes = vec![0, 0, 11, 0, 0, 0, 0];
            assert_eq!(answers(name), (codes, "ooocccd".to_string()), "{name}");
        }
    }
}
