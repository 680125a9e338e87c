//! Who may act (02, "Light up who may act", with the action's number that E4 asks for): each user's
//! action is tried on a copy of the monitor.

use crate::code::{self, Code};
use crate::examples::numbered;
use crate::monitor::{Kept, Monitor};
use crate::workspace;

impl<A: Kept> Monitor<A> {
    /// What the action with this number would be answered now, for each user.
    pub fn trials(&self, action: u8) -> Vec<Code> {
        let answer = |user: usize| self.clone().step(numbered(user as u32, action)).code;
        (0..self.users()).map(answer).collect()
    }

    /// The mask without a workspace: bit u is set when the action by user u would be answered 0 now.
    pub fn mask(&self, action: u8) -> u16 {
        mask_of(&self.trials(action))
    }

    /// The mask with its workspace, which is as the trial of the highest numbered user leaves it whose
    /// trial gets neither 16 nor 17.
    ///
    /// # Errors
    /// 12 if the workspace is too short.
    pub fn enabled(&self, action: u8, workspace: &mut [u32]) -> Result<u16, Code> {
        workspace::check(workspace)?;
        let trials = self.trials(action);
        if let Some(user) = trials.iter().rposition(is_let_through) {
            self.clone().event(numbered(user as u32, action), workspace);
        }
        Ok(mask_of(&trials))
    }
}

/// Whether permissions and workflow let an action with this answer through.
fn is_let_through(code: &Code) -> bool {
    ![code::NOT_AUTHORIZED, code::NO_TRANSITION].contains(code)
}

/// The mask of the users whose trial is accepted.
fn mask_of(trials: &[Code]) -> u16 {
    let accepted = (0..trials.len()).filter(|user| trials[*user] == code::ACCEPTED);
    accepted.map(|user| 1u16 << user).sum()
}

#[cfg(test)]
mod tests {
    use super::*;
    use std::collections::BTreeSet;

    use crate::examples::{action, grant, revoke, CLOSE};
    use crate::generate::{instances, Random};
    use crate::monitor::Taken;
    use crate::raw::RawAction;
    use crate::workspace::{expected, WORDS};

    /// Role 0 apart from role 1, for user 0 with both roles, user 1 with role 1 and user 2 with
    /// none.
    fn apart() -> Monitor<Taken> {
        let words = [0x09000000, 0x02000000, 0x02000001];
        Monitor::open(3, 2, &words, &[3, 2, 0]).expect("it opens")
    }

    /// Plus everyone, after so many actions of user 0; user 1 has no role.
    fn plus_everyone(taken: usize) -> Monitor<Taken> {
        let opened = Monitor::open(2, 1, &[0x05000000, 0x01000000], &[1, 0]);
        let mut monitor = opened.expect("it opens");
        (0..taken).for_each(|_| assert_eq!(monitor.step(action(0)).code, 0));
        monitor
    }

    #[test]
    fn masks_are_as_counted_by_hand() {
        let mut monitor = apart();
        assert_eq!(monitor.mask(0), 0b011);
        monitor.step(grant(2, 0));
        assert_eq!(monitor.mask(0), 0b111);
        monitor.step(action(0));
        assert_eq!(monitor.mask(0), 0b110, "who acted may not act for the other side");
        monitor.step(revoke(1, 1));
        assert_eq!(monitor.mask(0), 0b100);
        monitor.step(action(2));
        assert_eq!(monitor.mask(0), 0, "both sides are filled");
        assert_eq!(monitor.step(CLOSE).code, 0);
        assert_eq!(monitor.mask(0), 0);
    }

    #[test]
    fn without_permissions_the_number_of_the_action_plays_no_part() {
        let mut random = Random::new(21);
        let mut masks = BTreeSet::new();
        for _ in 0..80 {
            let raw = instances::well_formed(&mut random, 9, 4);
            let monitor = raw.monitor().expect("it is well formed");
            if monitor.secure().is_some() {
                continue;
            }
            let mask = monitor.mask(0);
            for number in [1, 63, 64, 255] {
                assert_eq!(monitor.mask(number), mask, "{raw:?}");
            }
            masks.insert(mask);
        }
        assert!(masks.len() > 3, "{masks:?}");
    }

    #[test]
    fn a_refused_event_leaves_the_mask() {
        let mut monitor = apart();
        monitor.step(action(0));
        let refused = [(action(0), 9), (action(3), 7), (0, 7), (u32::MAX, 7), (CLOSE, 11)];
        for (word, code) in refused {
            assert_eq!((monitor.step(word).code, monitor.mask(0)), (code, 0b010));
        }
        assert_eq!(monitor.event(action(1), &mut vec![0; WORDS - 1]), 12);
        assert_eq!(monitor.mask(0), 0b010);
        let mut full = plus_everyone(12);
        assert_eq!((full.step(action(0)).code, full.mask(0)), (8, 0));
    }

    #[test]
    fn the_workspace_is_that_of_the_highest_users_trial() {
        for mut monitor in [apart(), plus_everyone(0), plus_everyone(3), plus_everyone(11)] {
            let marked: Vec<u32> = (0..WORDS as u32 + 2).collect();
            let (mut workspace, mut tried) = (marked.clone(), marked.clone());
            let mask = monitor.mask(0);
            assert_eq!(monitor.enabled(0, &mut workspace), Ok(mask));
            let mut actions = monitor.taken().to_vec();
            actions.push(Taken { user: monitor.users() - 1, held: [].into() });
            assert_eq!(workspace[..WORDS], expected(monitor.policy(), &actions));
            assert_eq!(workspace[WORDS..], marked[WORDS..]);
            assert_eq!(monitor.event(action(monitor.users() as u32 - 1), &mut tried), 9);
            assert_eq!(workspace, tried);
        }
    }

    #[test]
    fn closed_and_full_monitors_leave_the_workspace() {
        let mut closed = plus_everyone(2);
        assert_eq!(closed.step(CLOSE).code, 0);
        for monitor in [closed, plus_everyone(12)] {
            let mut workspace = vec![4; WORDS + 2];
            assert_eq!(monitor.enabled(0, &mut workspace), Ok(0));
            assert!(workspace.iter().all(|word| *word == 4));
            assert_eq!(monitor.enabled(0, &mut workspace[1..WORDS]), Err(12));
        }
    }

    /// Plus everyone under permissions for users 0 and 2 alone, of four, to make the one step that there
    /// is.
    fn one_step() -> Monitor<Taken> {
        let row = |action: u32| (1u64 << action).to_le_bytes();
        let given = ([row(5), row(6)].concat(), [2, 1, 2, 0, 0, 5, 1]);
        let words = [0x05000000, 0x01000000];
        let opened = Monitor::open_secure(4, 2, &words, &[1, 2, 3, 2], (&given.0, &given.1));
        opened.expect("it opens")
    }

    #[test]
    fn the_workspace_is_that_of_the_highest_user_who_is_let_through() {
        let mut monitor = one_step();
        let marked: Vec<u32> = (0..WORDS as u32 + 2).collect();
        let (mut workspace, mut tried) = (marked.clone(), marked.clone());
        assert_eq!(monitor.trials(5), [0, 16, 0, 16]);
        assert_eq!(monitor.enabled(5, &mut workspace), Ok(0b0101));
        assert_eq!(monitor.clone().event(numbered(2, 5), &mut tried), 0);
        assert_eq!(workspace, tried);
        workspace.clone_from(&marked);
        assert_eq!(monitor.trials(6), [16, 17, 17, 17]);
        assert_eq!((monitor.enabled(6, &mut workspace), &workspace), (Ok(0), &marked));
        assert_eq!((monitor.enabled(64, &mut workspace), &workspace), (Ok(0), &marked));
        monitor.step(numbered(0, 5));
        assert_eq!(monitor.trials(5), [17, 16, 17, 16], "the state has moved");
        assert_eq!((monitor.enabled(5, &mut workspace), &workspace), (Ok(0), &marked));
    }

    #[test]
    fn sixteen_users_have_sixteen_bits() {
        let opened = Monitor::<RawAction>::open(16, 1, &[0x01000000], &[1; 16]);
        let mut monitor = opened.expect("it opens");
        assert_eq!(monitor.mask(0), u16::MAX);
        monitor.step(revoke(15, 0));
        assert_eq!(monitor.mask(0), u16::MAX >> 1);
    }
}
