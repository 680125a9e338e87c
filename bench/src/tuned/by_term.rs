//! The same workspace with one table a term: each term's column by its own pass over the sets.

use super::policy::Shape;
use super::Action;
use super::{SETS, WORDS};

/// The columns of the terms that begin at a policy's words, one behind the other. Bit 0 of an entry
/// is for satisfied, bit 1 for possible.
struct Columns {
    entries: Vec<u8>,
    users: Vec<u16>,
    sets: usize,
}

impl Columns {
    fn new(words: usize, actions: &[Action]) -> Columns {
        let sets = 1 << actions.len();
        let mut users = vec![0; sets];
        for s in 1..sets {
            let last = s.ilog2() as usize;
            users[s] = users[s ^ 1 << last] | 1 << (actions[last].user & 15);
        }
        Columns { entries: vec![0; words * sets], users, sets }
    }

    /// The column of the term at word i.
    fn column(&mut self, i: usize) -> &mut [u8] {
        &mut self.entries[i * self.sets..][..self.sets]
    }

    /// A unit term: one action that met it, or none.
    fn unit(&mut self, i: usize, actions: &[Action]) {
        let column = self.column(i);
        column[0] = 2;
        for (j, action) in actions.iter().enumerate() {
            column[1 << j] = 3 * (action.met >> i & 1) as u8;
        }
    }

    /// A plus: all actions met the inner term.
    fn plus(&mut self, i: usize, actions: &[Action]) {
        let column = self.column(i);
        column[0] = 2;
        for s in 1..column.len() {
            let last = s.ilog2() as usize;
            let before = u8::from(column[s ^ 1 << last] != 0);
            column[s] = 3 * (before & (actions[last].met >> (i + 1)) as u8 & 1);
        }
    }

    /// An operator's own column, its sides', and the users of each set.
    fn sides(&mut self, i: usize, right: usize) -> (&mut [u8], &[u8], &[u8], &[u16]) {
        let (own, behind) = self.entries[i * self.sets..].split_at_mut(self.sets);
        let left = &behind[..self.sets];
        let right = &behind[(right - i - 1) * self.sets..][..self.sets];
        (own, left, right, &self.users)
    }

    /// Either, or both.
    fn merge(&mut self, i: usize, right: usize, rule: impl Fn(u8, u8) -> u8) {
        let (own, left, right, _) = self.sides(i, right);
        for ((own, left), right) in own.iter_mut().zip(left).zip(right) {
            *own = rule(*left, *right);
        }
    }

    /// Together or apart: some way to part the set in two. It stops where both bits are found.
    fn join<const APART: bool>(&mut self, i: usize, right: usize) {
        let (own, left, right, users) = self.sides(i, right);
        for (s, own) in own.iter_mut().enumerate() {
            let (mut found, mut a) = (0, s);
            loop {
                let b = s ^ a;
                // SAFETY: a and b are parts of s, which is a place in each of these slices.
                unsafe {
                    if !APART || users.get_unchecked(a) & users.get_unchecked(b) == 0 {
                        found |= left.get_unchecked(a) & right.get_unchecked(b);
                    }
                }
                if found == 3 || a == 0 {
                    break;
                }
                a = (a - 1) & s;
            }
            *own = found;
        }
    }
}

/// Fills the workspace for the actions.
pub fn fill(shape: &Shape, actions: &[Action], workspace: &mut [u32; WORDS]) {
    let mut columns = Columns::new(shape.words, actions);
    for i in (0..shape.words).rev() {
        let right = usize::from(shape.right[i]);
        match 1u32 << i {
            own if own & shape.units != 0 => columns.unit(i, actions),
            own if own & shape.plus != 0 => columns.plus(i, actions),
            own if own & shape.either != 0 => columns.merge(i, right, |l, r| l | r),
            own if own & shape.both != 0 => columns.merge(i, right, |l, r| l & r),
            own if own & shape.apart != 0 => columns.join::<true>(i, right),
            _ => columns.join::<false>(i, right),
        }
    }
    workspace.fill(0);
    let (satisfied, possible) = workspace.split_at_mut(SETS);
    for (i, column) in columns.entries.chunks_exact(columns.sets).enumerate() {
        for (s, entry) in column.iter().enumerate() {
            satisfied[s] |= u32::from(entry & 1) << i;
            possible[s] |= u32::from(entry >> 1) << i;
        }
    }
}
