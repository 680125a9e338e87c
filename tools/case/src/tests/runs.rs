//! Runs, against the reference's judge.

use reference::casefile::{join_parts, judge, read_case};
use reference::examples::{action, LISTING_L, LISTING_L_OUTPUT};
use reference::generate::case_files;
use reference::monitor::{Monitor, Taken};

use crate::{file, run, text};

/// What the judge would have printed: of each line what stands before the first two blanks, without
/// the lines of a refused policy.
fn judged(text: &str) -> String {
    let own = text.lines().filter(|line| !line.starts_with(' '));
    own.map(|line| line.split("  ").next().unwrap_or_default().to_string() + "\n").collect()
}

#[test]
fn listing_l_is_run() {
    let report = run::report(&LISTING_L, None);
    let expected = "\
1 0 o   act 0 1    may act: 0 1     accepted
2 0 o   act 1 2    may act: 0 1     accepted
3 0 o   grant 1 2  may act: 0 1     accepted
4 0 o   grant 2 2  may act: 0 1 2   accepted
5 11 o  close      may act: 0 1 2   close, but not satisfied
6 0 c   act 2 3    may act: 0 1 2   accepted
7 0 c   act 0 4    may act: 0 1 2   accepted
8 0 d   close      may act: nobody  accepted
9 10 d  act 0 4    may act: nobody  the monitor is closed
taken 4  may act: nobody
";
    assert_eq!(report.text, expected);
    assert_eq!(judged(&report.text), LISTING_L_OUTPUT);
    assert!(report.accepted);
}

#[test]
fn generated_files_are_judged_alike() {
    for (name, bytes) in case_files(11, 1500) {
        let report = run::report(&bytes, None);
        let expected = judge(&bytes);
        assert_eq!(judged(&report.text), expected, "{name}");
        assert_eq!(report.accepted, !expected.starts_with("refused"), "{name}");
    }
}

/// Who may act in each line of a run.
fn told(text: &str) -> Vec<String> {
    let who = |line: &str| {
        let behind = line.split("may act: ").nth(1).unwrap_or_default();
        behind.split("  ").next().unwrap_or_default().to_string()
    };
    text.lines().map(who).collect()
}

/// The same by the reference: each user's action tried after each event, and at the end.
fn tried(bytes: &[u8]) -> Option<Vec<String>> {
    let case = read_case(bytes).ok()?;
    let (users, roles) = (case.users.into(), case.roles.into());
    let mut monitor = Monitor::<Taken>::open(users, roles, &case.policy, &case.user_roles).ok()?;
    let may_act = |monitor: &Monitor<Taken>| {
        let takes = |user: &usize| monitor.clone().step(action(*user as u32)).code == 0;
        let who: Vec<String> = (0..users).filter(takes).map(|user| user.to_string()).collect();
        if who.is_empty() {
            "nobody".to_string()
        } else {
            who.join(" ")
        }
    };
    let mut lines = Vec::new();
    for word in case.events {
        monitor.step(word);
        lines.push(may_act(&monitor));
    }
    lines.push(may_act(&monitor));
    Some(lines)
}

#[test]
fn who_may_act_is_whose_action_would_be_taken() {
    let mut runs = 0;
    for (name, bytes) in case_files(12, 1500) {
        // with a workflow each action has users of its own: tests/plans.rs
        let without = file::read(&bytes).is_ok_and(|case| case.secure.is_none());
        if let Some(expected) = tried(&bytes).filter(|_| without) {
            assert_eq!(told(&run::report(&bytes, None).text), expected, "{name}");
            runs += 1;
        }
    }
    assert!(runs > 500, "{runs}");
}

#[test]
fn a_run_without_events_tells_who_may_begin() {
    let text = "users 3\nroles 2\npolicy apart(role 0, role 1)\ngrants\n0: 1\n1:\n2: 0\nevents\n";
    let bytes = text::write(text).expect("it is written");
    assert_eq!(run::report(&bytes, None).text, "taken 0  may act: 0 2\n");
}

#[test]
fn refusals_say_what_their_number_says() {
    let report = run::report(&LISTING_L[..95], None);
    let expected =
        "refused 14  case file malformed: the events part ends at byte 96 of a file of 95\n";
    assert_eq!(report.text, expected);
    assert!(!report.accepted);
    let no_rows = join_parts(&[0, 0, 0, 1], &[1, 1], &[]);
    let expected = "refused 6  role rows not one a user, or a role not declared\n";
    assert_eq!(run::report(&no_rows, None).text, expected);
}
