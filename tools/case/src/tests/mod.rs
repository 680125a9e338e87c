//! Texts, files, runs and policies against each other and against the reference program.

mod arguments;
mod faults;
mod files;
mod lines;
mod marks;
mod mutations;
mod plans;
mod policies;
mod recipes;
mod runs;
mod texts;

use crate::{file, text};

/// Listing L as text.
const LISTING_TEXT: &str = "users 3
roles 3
policy
  together(
    apart(role 0, either(role 2, apart(role 0, role 0))),
    plus everyone)
grants
  0: 1
  1: 0
  2:
events
  act 0 1
  act 1 2
  grant 1 2
  grant 2 2
  close
  act 2 3
  act 0 4
  close
  act 0 4
";

/// A text with this policy.
fn with_policy(policy: &str) -> String {
    format!("users 4\nroles 3\npolicy {policy}\ngrants\n0:\n1: 0 1\n2:\n3: 2\nevents\n")
}

/// The words of a policy.
fn words(policy: &str) -> Vec<u32> {
    let bytes = text::write(&with_policy(policy)).expect(policy);
    file::read(&bytes).expect("a case file").policy
}

/// What is wrong with a text.
fn message(text: &str) -> String {
    text::write(text).expect_err(text).to_string()
}
