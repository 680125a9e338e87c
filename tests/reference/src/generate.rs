//! Inputs for comparisons, made from a seed: the same seed always gives the same inputs.
//!
//! - [`terms`]: random terms, also ones that lean on together and apart, and equal forms;
//! - [`spreading`]: other forms of a policy by spreading over either and gathering;
//! - [`cases`]: random cases and damaged case files;
//! - [`edges`]: case files at the edges of what 01 allows, for every refusal, and for leavers;
//! - [`secure`]: permissions and workflows, and cases that run under them;
//! - [`faults`]: policies with faults at known places;
//! - [`instances`]: raw instances, well formed and malformed in each way that number 15 lists;
//! - [`statuses`]: letters of the status, words of kind 4, and runs in which the letter comes and goes;
//! - [`texts`]: texts of policies, also damaged ones;
//! - [`calls`]: inputs for single calls, with outputs and workspaces of every length.

pub mod calls;
pub mod cases;
pub mod edges;
pub mod faults;
pub mod instances;
pub mod random;
pub mod secure;
pub mod spreading;
pub mod statuses;
pub mod terms;
pub mod texts;

pub use random::Random;

/// A case file with a name that says what it tries.
pub type NamedFile = (String, Vec<u8>);

/// The first so many case files for a seed: every edge first, then random ones of each kind in
/// turn.
pub fn case_files(seed: u64, count: usize) -> Vec<NamedFile> {
    let mut files = edges::all();
    let mut random = Random::new(seed);
    let mut turn = 0;
    while files.len() < count {
        files.push(cases::random_file(&mut random, turn));
        turn += 1;
    }
    files.truncate(count);
    files
}

#[cfg(test)]
mod tests {
    use super::calls::EnabledInput;
    use super::*;
    use crate::casefile::{judge, read_case};
    use crate::monitor::Taken;
    use crate::multiset::multiset;
    use crate::policy::{read_term, Operator, MOST_WORDS};
    use std::collections::BTreeSet;

    #[test]
    fn the_same_seed_gives_the_same_files() {
        assert_eq!(case_files(3, 900), case_files(3, 900));
        assert_ne!(case_files(3, 900), case_files(4, 900));
        assert_eq!(case_files(3, 5).len(), 5);
    }

    #[test]
    fn edges_have_different_names() {
        let names: BTreeSet<String> = edges::all().into_iter().map(|(name, _)| name).collect();
        assert_eq!(names.len(), edges::all().len());
    }

    #[test]
    fn edges_bring_about_every_number_that_a_case_file_can() {
        let texts: Vec<String> = edges::all().iter().map(|(_, bytes)| judge(bytes)).collect();
        for refusal in [5, 6, 14, 19] {
            let wanted = format!("refused {refusal}\n");
            assert!(texts.contains(&wanted), "{wanted}");
        }
        for refusal in 1..=4 {
            let wanted = format!("refused {refusal} at ");
            assert!(texts.iter().any(|text| text.starts_with(&wanted)), "{wanted}");
        }
        for answer in ["0", "7", "8", "9", "10", "11", "16", "17"] {
            let has =
                |text: &String| text.lines().any(|line| line.split(' ').nth(1) == Some(answer));
            assert!(texts.iter().any(|text| !text.starts_with("refused") && has(text)), "{answer}");
        }
    }

    #[test]
    fn named_orders_come_out_as_named() {
        for (name, bytes) in edges::all() {
            let Some((first, _)) = name.split_once(" before ") else {
                continue;
            };
            let text = judge(&bytes);
            let fields: Vec<&str> = text.split_whitespace().collect();
            let event = format!(" {first} ");
            let comes_first = fields[..2] == ["refused", first] || text.contains(&event);
            assert!(comes_first, "{name}: {text}");
        }
    }

    #[test]
    fn equal_forms_have_one_normal_form() {
        let mut random = Random::new(11);
        for turn in 0..2000 {
            let style = terms::Style { users: 3, roles: 3, lean: 60 };
            let words = random.between(1, 31);
            let term = match turn % 2 {
                0 => terms::term(&mut random, style, words),
                _ => terms::chain(&mut random, style, Operator::Apart, words.div_ceil(2)),
            };
            assert_eq!(read_term(3, 3, &term.words()), Ok(term.clone()));
            let equal = terms::equal_form(&mut random, &term, 40);
            assert_eq!(equal.length(), term.length());
            assert_eq!(equal.normal(), term.normal());
        }
    }

    #[test]
    fn spread_files_open_and_are_refused_with_1() {
        let mut random = Random::new(18);
        let mut seen = BTreeSet::new();
        for (kind, bytes) in (0..1800).map(|turn| cases::random_file(&mut random, turn)) {
            if kind.ends_with("spread") {
                let case = read_case(&bytes).expect("it can be read");
                let long = case.policy.len() > MOST_WORDS;
                let expected = if long { Err(1) } else { Ok(()) };
                assert_eq!(case.open::<Taken>().map(|_| ()), expected);
                seen.insert((kind, long));
            }
        }
        assert_eq!(seen.len(), 4, "{seen:?}");
    }

    #[test]
    fn calls_bring_about_their_numbers() {
        let mut random = Random::new(12);
        let mut seen = BTreeSet::new();
        let mut policies: Vec<calls::PolicyInput> =
            calls::policy_edges().into_iter().map(|(_, input)| input).collect();
        policies.extend((0..400).map(|_| calls::policy_input(&mut random)));
        for input in policies {
            let mut output = calls::marked(input.output);
            let words = &input.words;
            seen.insert(crate::policy::normal_form(input.users, input.roles, words, &mut output));
        }
        for (_, input) in calls::event_edges(&mut random) {
            let mut instance = input.instance;
            seen.insert(instance.event(input.word, &mut calls::marked(input.workspace)));
        }
        let codes = [0, 1, 2, 3, 4, 5, 7, 8, 9, 10, 11, 12, 13, 15, 16, 17];
        assert_eq!(seen, BTreeSet::from(codes));
    }

    #[test]
    fn denying_terms_are_policies() {
        let mut random = Random::new(17);
        for _ in 0..2000 {
            let style = terms::Style { users: 3, roles: 3, lean: 80 };
            let term = terms::denying(&mut random, style, terms::MOST_DENIALS);
            assert_eq!(read_term(3, 3, &term.words()), Ok(term));
        }
    }

    #[test]
    fn multisets_under_a_not_want_a_role_alone() {
        let answer = |input: &calls::MultisetInput, rows: &[u16]| {
            let workspace = &mut calls::marked(input.workspace);
            multiset(input.users, input.roles, &input.words, rows, &input.counts, workspace)
        };
        let edges = calls::multiset_edges().into_iter();
        for (name, input) in edges.filter(|(name, _)| name.starts_with("not role 2")) {
            let rows = &input.user_roles;
            let some: Vec<u16> = rows.iter().map(|row| if *row == 0 { 1 } else { *row }).collect();
            assert_eq!(answer(&input, rows), Ok(!rows.contains(&0)), "{name}");
            assert_eq!(answer(&input, &some), Ok(true), "{name}");
        }
    }

    #[test]
    fn edges_of_who_may_act_bring_about_its_numbers_and_masks() {
        let mut random = Random::new(13);
        let mut seen = BTreeSet::new();
        for (_, input) in calls::enabled_edges(&mut random) {
            let EnabledInput { instance, action, workspace } = input;
            seen.insert(instance.enabled(action, &mut calls::marked(workspace)));
        }
        for answer in [Err(12), Err(15), Ok(0), Ok(1), Ok(u16::MAX)] {
            assert!(seen.contains(&answer), "{answer:?}");
        }
    }
}
