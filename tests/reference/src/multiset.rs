//! The multiset test (01, "The bag test").

use crate::code::{self, Code};
use crate::monitor::{Monitor, Taken, MOST_ACTIONS};
use crate::policy::{self, Term};
use crate::search::Search;
use crate::workspace;

/// The actions of a multiset, each with the roles that its user holds: numbered by ascending user,
/// those of one user next to each other (02, E8).
fn multiset_actions(user_roles: &[u16], counts: &[u8; 16]) -> Vec<Taken> {
    let mut actions = Vec::new();
    for (user, row) in user_roles.iter().enumerate() {
        for _ in 0..counts[user] {
            actions.push(Taken { user, held: policy::ones(*row) });
        }
    }
    actions
}

/// Opens a multiset test: the policy and the actions in the order of their numbers.
///
/// # Errors
/// 5, 1, 2, 3, 4, 6, 7, 8, looked for in that order.
pub fn open_multiset(
    users: usize,
    roles: usize,
    words: &[u32],
    user_roles: &[u16],
    counts: &[u8; 16],
) -> Result<(Term, Vec<Taken>), Code> {
    let opened: Monitor<Taken> = Monitor::open(users, roles, words, user_roles)?;
    if counts[users..].iter().any(|count| *count > 0) {
        return Err(code::EVENT_WORD);
    }
    if counts.iter().map(|count| usize::from(*count)).sum::<usize>() > MOST_ACTIONS {
        return Err(code::TOO_MANY_ACTIONS);
    }
    Ok((opened.policy().clone(), multiset_actions(user_roles, counts)))
}

/// The multiset test (01's bag test): does the multiset satisfy the policy by Definition 3?
///
/// A yes or a no fills the workspace for the actions in the order of their numbers.
///
/// # Errors
/// 12, then the opening's numbers, then 7, then 8.
pub fn multiset(
    users: usize,
    roles: usize,
    words: &[u32],
    user_roles: &[u16],
    counts: &[u8; 16],
    workspace: &mut [u32],
) -> Result<bool, Code> {
    workspace::check(workspace)?;
    let (policy, actions) = open_multiset(users, roles, words, user_roles, counts)?;
    let mut search = Search::new(&policy);
    workspace::fill(&mut search, &actions, workspace);
    Ok(search.satisfied(&actions))
}

#[cfg(test)]
mod tests {
    use super::*;
    use crate::workspace::{POSSIBLE, WORDS};

    const PLUS_EVERYONE: [u32; 2] = [0x05000000, 0x01000000];

    #[test]
    fn multisets_are_refused_in_order() {
        let test = |users, rows: &[u16], pairs: &[(usize, u8)]| {
            let mut counts = [0; 16];
            pairs.iter().for_each(|(user, count)| counts[*user] = *count);
            multiset(users, 2, &PLUS_EVERYONE, rows, &counts, &mut vec![0; WORDS])
        };
        assert_eq!(test(17, &[], &[(15, 1)]), Err(5));
        assert_eq!(test(2, &[1], &[(15, 1)]), Err(6));
        assert_eq!(test(2, &[1, 2], &[(0, 200), (2, 1)]), Err(7));
        assert_eq!(test(2, &[1, 2], &[(0, 200), (1, 56)]), Err(8));
        assert_eq!(test(2, &[1, 2], &[(0, 6), (1, 7)]), Err(8));
        assert_eq!(test(2, &[1, 2], &[(0, 6), (1, 6)]), Ok(true));
        assert_eq!(test(2, &[1, 0], &[(0, 6), (1, 6)]), Ok(false));
        assert_eq!(test(2, &[1, 2], &[]), Ok(false));
    }

    #[test]
    fn a_short_workspace_is_12_first() {
        let mut short = vec![3; WORDS - 1];
        assert_eq!(multiset(0, 0, &[], &[], &[0; 16], &mut short), Err(12));
        assert!(short.iter().all(|word| *word == 3));
    }

    #[test]
    fn the_empty_multiset_fills_the_workspace() {
        let mut workspace = vec![9; WORDS];
        let answer = multiset(1, 1, &PLUS_EVERYONE, &[1], &[0; 16], &mut workspace);
        assert_eq!(answer, Ok(false));
        assert_eq!(workspace[POSSIBLE], 3);
        assert_eq!(workspace.iter().filter(|word| **word != 0).count(), 1);
    }

    #[test]
    fn actions_are_numbered_by_ascending_user() {
        let mut counts = [0; 16];
        (counts[0], counts[2], counts[15]) = (2, 1, 3);
        let actions = multiset_actions(&[1; 16], &counts);
        let users: Vec<usize> = actions.iter().map(|action| action.user).collect();
        assert_eq!(users, [0, 0, 2, 15, 15, 15]);
    }
}
