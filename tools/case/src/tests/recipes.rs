//! What `docs/POLICIES.md` says of each recipe, against the library's multiset test: the policy of
//! the recipe's example, for four users with every choice of roles out of some, and every multiset
//! of at most four actions.

use std::path::Path;

use crate::file::Case;
use crate::monitor::{satisfies, MOST_USERS};
use crate::text::policy_alone;

/// The users of each test.
const USERS: usize = 4;
/// The most actions of each test.
const ACTIONS: usize = 4;
/// The sets of roles that a user holds: none, one, or two of three.
const ROWS: [u16; 6] = [0b000, 0b001, 0b010, 0b100, 0b011, 0b101];

/// The roles that each user holds.
#[derive(Clone, Copy, Debug)]
struct Roles([u16; USERS]);

impl Roles {
    /// Whether a user holds a role.
    fn has(self, user: usize, role: usize) -> bool {
        self.0[user] >> role & 1 == 1
    }

    /// Whether a user holds some role.
    fn any(self, user: usize) -> bool {
        self.0[user] != 0
    }

    /// Every choice of one row a user.
    fn all() -> impl Iterator<Item = Roles> {
        let choices = ROWS.len();
        (0..choices.pow(USERS as u32)).map(move |number| {
            let row = |user: u32| ROWS[number / choices.pow(user) % choices];
            Roles([row(0), row(1), row(2), row(3)])
        })
    }
}

/// Every list of users that is in ascending order and has at most so many.
fn multisets(most: usize) -> Vec<Vec<usize>> {
    let mut all = vec![vec![]];
    let mut first = 0;
    for _ in 0..most {
        let (last, longer) = (all.len(), all[first..].to_vec());
        for list in longer {
            let least = list.last().copied().unwrap_or(0);
            all.extend((least..USERS).map(|user| [&list[..], &[user]].concat()));
        }
        first = last;
    }
    all
}

/// Whether some order of the users is as a recipe says.
fn some_order(users: &mut [usize], fixed: usize, says: &dyn Fn(&[usize]) -> bool) -> bool {
    if fixed == users.len() {
        return says(users);
    }
    (fixed..users.len()).any(|place| {
        users.swap(fixed, place);
        let found = some_order(users, fixed + 1, says);
        users.swap(fixed, place);
        found
    })
}

/// The policy of an example.
fn policy_of(example: &str) -> Vec<u32> {
    let folder = Path::new(env!("CARGO_MANIFEST_DIR")).join("../../examples");
    let path = folder.join(example).with_extension("txt");
    let text = std::fs::read_to_string(&path).expect(example);
    policy_alone(&text).expect(example).policy
}

/// Holds an example's policy against what is said of the users who act, in some order.
fn means(example: &str, says: fn(Roles, &[usize]) -> bool) {
    let policy = policy_of(example);
    let multisets = multisets(ACTIONS);
    for roles in Roles::all() {
        let (users, grants) = (USERS as u8, roles.0.to_vec());
        let case = Case { users, roles: 3, policy: policy.clone(), grants, ..Case::default() };
        for multiset in &multisets {
            let mut counts = [0; MOST_USERS];
            multiset.iter().for_each(|user| counts[*user] += 1);
            let expected =
                some_order(&mut multiset.clone(), 0, &|users: &[usize]| says(roles, users));
            let found = satisfies(&case, &counts);
            assert_eq!(found, Ok(expected), "{example}: {multiset:?} with {roles:?}");
        }
    }
}

/// Whether the users all differ.
fn differ(users: &[usize]) -> bool {
    users.iter().enumerate().all(|(place, user)| !users[..place].contains(user))
}

#[test]
fn count_and_approve() {
    means(
        "count-and-approve",
        |roles, users| matches!(users, [one, other] if one != other && roles.has(*one, 0) && roles.has(*other, 1)),
    );
}

#[test]
fn counters_and_approver() {
    means("counters-and-approver", |roles, users| match users {
        [_] | [] => false,
        [approver, counters @ ..] => {
            let counts = |user: &usize| user != approver && roles.has(*user, 0);
            roles.has(*approver, 1) && counters.iter().all(counts)
        }
    });
}

#[test]
fn three_users_once() {
    means("three-users-once", |roles, users| {
        users.len() == 3 && differ(users) && users.iter().all(|user| roles.any(*user))
    });
}

#[test]
fn three_users_or_more() {
    means("three-users-or-more", |roles, users| {
        let some_three = users.len() >= 3 && differ(&users[..3]);
        some_three && users.iter().all(|user| roles.any(*user))
    });
}

#[test]
fn named_users() {
    means("named-users", |roles, users| {
        users.len() == 2 && differ(users) && users.iter().all(|user| *user < 3 && roles.any(*user))
    });
}

#[test]
fn one_or_two_more() {
    means("one-or-two-more", |roles, users| match users {
        [one, other] => one != other && roles.has(*one, 0) && roles.has(*other, 2),
        [_, _, _] => differ(users) && users.iter().all(|user| roles.has(*user, 0)),
        _ => false,
    });
}

#[test]
fn besides_anybody() {
    means("besides-anybody", |roles, users| match users {
        [one, other, rest @ ..] => {
            let approved = one != other && roles.has(*one, 0) && roles.has(*other, 1);
            approved && rest.iter().all(|user| roles.any(*user))
        }
        _ => false,
    });
}

#[test]
fn may_be_audited() {
    means("may-be-audited", |roles, users| {
        let each_its_own = (0..).zip(users).all(|(role, user)| roles.has(*user, role));
        (2..=3).contains(&users.len()) && differ(users) && each_its_own
    });
}

#[test]
fn not_these_users() {
    means(
        "not-these-users",
        |roles, users| matches!(users, [user] if roles.any(*user) && ![0, 3].contains(user)),
    );
}

#[test]
fn exclusive_roles() {
    means("exclusive-roles", |roles, users| match users {
        [one, other] => {
            let approves = roles.has(*other, 1) && !roles.has(*other, 0);
            one != other && roles.has(*one, 0) && approves
        }
        _ => false,
    });
}

#[test]
fn both_roles() {
    means(
        "both-roles",
        |roles, users| matches!(users, [user] if roles.has(*user, 0) && roles.has(*user, 1)),
    );
}

#[test]
fn three_or_more() {
    means("three-or-more", |roles, users| {
        users.len() >= 3 && users.iter().all(|user| *user == 1 && roles.any(*user))
    });
}

#[test]
fn together_is_not_apart() {
    means(
        "together-is-not-apart",
        |roles, users| matches!(users, [one, other] if roles.has(*one, 0) && roles.has(*other, 1)),
    );
}

#[test]
fn counter_with_pricer_or_editor() {
    for name in ["counter-with-pricer-or-editor", "whole-alternatives"] {
        means(name, |roles, users| match users {
            [one, other] => roles.has(*one, 0) && (roles.has(*other, 1) || roles.has(*other, 2)),
            _ => false,
        });
    }
}

#[test]
fn every_form_of_a_policy() {
    means("every-form-of-a-policy", |roles, users| match users {
        [_, _] | [_] | [] => false,
        [one, named, rest @ ..] => {
            let others = |user: &usize| roles.any(*user) && ![0, 3, *one].contains(user);
            let meets = roles.has(*one, 0) || roles.has(*one, 2);
            meets && *named == 3 && roles.any(3) && rest.iter().all(others)
        }
    });
}

#[test]
fn asks_for_one_more() {
    means("asks-for-one-more", |roles, users| match users {
        [one, other, rest @ ..] => {
            let approved = one != other && roles.has(*one, 0) && roles.has(*other, 1);
            approved && !rest.is_empty() && rest.iter().all(|user| roles.any(*user))
        }
        _ => false,
    });
}

#[test]
fn leaver() {
    means("leaver", |roles, users| {
        !users.is_empty() && users.iter().all(|user| *user != 0 && roles.any(*user))
    });
}

#[test]
fn not_not_everyone() {
    means("not-not-everyone", |roles, users| matches!(users, [user] if roles.any(*user)));
}
