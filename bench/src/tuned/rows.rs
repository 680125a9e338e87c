//! The table of the proved library, tuned by hand: one pass over the sets, both columns in one
//! 64-bit row, the ways to part a set in two walked by `(a - 1) & s`.
//!
//! Two things save walks. What is possible for a set is possible for each part of it: an operator
//! that is not possible for a set without its last action, or without its first, is neither
//! possible nor satisfied for the set. And alike actions can be exchanged: a set with an action but
//! without an earlier one that is alike has the row of the set with the earlier one instead.
//!
//! Of actions that are tried one after the other, all but the last are entered in the column of
//! possible alone, where a walk ends as soon as all that it can find is found.

use std::mem::MaybeUninit;
use std::ops::BitOr;

use super::policy::Shape;
use super::{Action, Trial};
use super::{SETS, WORDS};

/// A binary operator of the policy that is no unit term.
#[derive(Clone, Copy)]
struct Operator {
    /// Its word, in both columns.
    word: u64,
    /// Its word in the columns in which either side will do.
    either: u64,
    /// Its word in the columns in which both sides are asked.
    both: u64,
    /// How far behind it its right side begins.
    right: u32,
}

/// The masks of a policy, and its operators.
struct Masks {
    /// In both columns.
    units: u64,
    plus: u64,
    together: u64,
    /// In one column.
    joint: u32,
    apart: u32,
    binary: u32,
    /// By the places of their words.
    operators: [MaybeUninit<Operator>; 32],
}

/// A mask in both columns.
fn twice(mask: u32) -> u64 {
    u64::from(mask) << 32 | u64::from(mask)
}

/// A mask in both columns, or in that of possible alone.
fn columns<const BOTH: bool>(mask: u32) -> u64 {
    if BOTH {
        twice(mask)
    } else {
        u64::from(mask) << 32
    }
}

impl Masks {
    /// Those of a policy; its operators are yet to be entered.
    #[inline(always)]
    fn new(shape: &Shape) -> Masks {
        let joint = shape.together | shape.apart;
        Masks {
            units: twice(shape.units),
            plus: twice(shape.plus),
            together: twice(shape.together),
            joint,
            apart: shape.apart,
            binary: joint | shape.either | shape.both,
            operators: [const { MaybeUninit::uninit() }; 32],
        }
    }

    /// Enters the operators.
    #[inline(always)]
    fn enter(&mut self, shape: &Shape) {
        let mut left = self.binary;
        while left != 0 {
            let place = left.trailing_zeros();
            left &= left - 1;
            let own = 1u32 << place;
            self.operators[place as usize].write(Operator {
                word: twice(own),
                either: twice(shape.either & own) | u64::from(self.joint & own) << 32,
                both: twice(shape.both & own),
                right: u32::from(shape.right[place as usize]) - place,
            });
        }
    }

    /// A row completed at these operators from the last to the first, and at each of them its right
    /// side's bit.
    #[inline(always)]
    fn finish(&self, mut bits: u64, mut alive: u32) -> (u64, u64) {
        let mut at_right = 0;
        while alive != 0 {
            let place = 31 - alive.leading_zeros();
            alive ^= 1 << place;
            // SAFETY: the place is that of an operator.
            let operator =
                unsafe { self.operators.get_unchecked(place as usize).assume_init_ref() };
            let left = bits >> 1;
            let right = bits >> (operator.right & 63);
            bits |= operator.either & (left | right) | operator.both & left & right;
            at_right |= right & operator.word;
        }
        (bits, at_right)
    }
}

/// The left and the right side's bit at each operator.
#[derive(Clone, Copy)]
#[repr(C, align(16))]
struct Sides {
    left: u64,
    right: u64,
}

impl BitOr for Sides {
    type Output = Sides;

    #[inline(always)]
    fn bitor(self, other: Sides) -> Sides {
        Sides { left: self.left | other.left, right: self.right | other.right }
    }
}

/// What is kept of each set: the sides' bits, the users, and what all actions met. Only entries of
/// sets that were entered are read.
struct Tables<const N: usize> {
    sides: [MaybeUninit<Sides>; N],
    users: [MaybeUninit<u16>; N],
    met: [MaybeUninit<u32>; N],
    /// The first set with the same row as far as alike actions are exchanged.
    same: [MaybeUninit<u16>; N],
}

impl<const N: usize> Tables<N> {
    /// With the empty set entered.
    #[inline(always)]
    fn new() -> Tables<N> {
        let mut tables = Tables {
            sides: [MaybeUninit::uninit(); N],
            users: [MaybeUninit::uninit(); N],
            met: [MaybeUninit::uninit(); N],
            same: [MaybeUninit::uninit(); N],
        };
        tables.sides[0].write(Sides { left: 0, right: 0 });
        tables.users[0].write(0);
        tables.met[0].write(u32::MAX);
        tables.same[0].write(0);
        tables
    }

    /// All ways to part s in two, until what was found is enough; t is s without its last action.
    /// Two parts go by one step: a, which has not the lowest action of t, and a with it. Places are
    /// counted twice, so that they serve for both tables without a shift.
    ///
    /// # Safety
    /// s is below N, t is s without its highest bit, t is not 0, and all sets below s were entered.
    #[inline(always)]
    unsafe fn joined<F: Copy + BitOr<Output = F>>(
        &self,
        s: usize,
        t: usize,
        one: impl Fn(usize, usize) -> F,
        enough: impl Fn(F) -> bool,
    ) -> F {
        let (whole, low) = (2 * s, 2 * (t & t.wrapping_neg()));
        let high = 2 * t ^ low;
        let mut a = high;
        let mut found = one(low, whole - low);
        while a != 0 && !enough(found) {
            let b = whole - a;
            found = found | one(a, b) | one(a + low, b - low);
            a = (a - 1) & high;
        }
        found
    }

    /// Where the parts a and b stand at the sides of the operators.
    ///
    /// # Safety
    /// They are twice the places of two sets below N that were entered.
    #[inline(always)]
    unsafe fn parted(&self, a: usize, b: usize) -> Sides {
        let at = |set: usize| *self.sides.as_ptr().cast::<u64>().add(set).cast::<Sides>();
        let (a, b) = (at(a), at(b));
        Sides { left: a.left & b.right, right: a.right & b.left }
    }

    /// The same, and for parts that share a user only at the words of together.
    ///
    /// # Safety
    /// As for [`Tables::parted`].
    #[inline(always)]
    unsafe fn allowed(&self, a: usize, b: usize, together: u64) -> u64 {
        let users = |set: usize| *self.users.as_ptr().cast::<u16>().byte_add(set);
        let parted = self.parted(a, b);
        let parted = parted.left | parted.right;
        if users(a) & users(b) == 0 {
            parted
        } else {
            parted & together
        }
    }

    /// The bits of s at the words of together and apart in the mask.
    ///
    /// # Safety
    /// As for [`Tables::joined`].
    #[inline(always)]
    unsafe fn joints<const BOTH: bool>(
        &self,
        masks: &Masks,
        alive: u32,
        s: usize,
        t: usize,
    ) -> u64 {
        let wanted = columns::<BOTH>(alive & masks.joint);
        if t == 0 || wanted == 0 {
            return 0;
        }
        let enough = |found: u64| !BOTH && found & wanted == wanted;
        let found = if alive & masks.apart == 0 {
            let enough = |found: Sides| enough(found.left | found.right);
            let Sides { left, right } = self.joined(s, t, |a, b| self.parted(a, b), enough);
            left | right
        } else {
            self.joined(s, t, |a, b| self.allowed(a, b, masks.together), enough)
        };
        found & wanted
    }
}

/// The tables and the workspace's two halves while sets are entered in ascending order.
struct Filling<'a, const N: usize> {
    masks: &'a Masks,
    tables: Tables<N>,
    satisfied: &'a mut [u32; SETS],
    possible: &'a mut [u32; SETS],
}

impl<const N: usize> Filling<'_, N> {
    /// Enters s with what stands at another set.
    ///
    /// # Safety
    /// Both are below N, and the other was entered.
    #[inline(always)]
    unsafe fn copy(&mut self, s: usize, other: usize) {
        let Filling { tables, satisfied, possible, .. } = self;
        *tables.sides.get_unchecked_mut(s) = *tables.sides.get_unchecked(other);
        *tables.users.get_unchecked_mut(s) = *tables.users.get_unchecked(other);
        *tables.met.get_unchecked_mut(s) = *tables.met.get_unchecked(other);
        *tables.same.get_unchecked_mut(s) = *tables.same.get_unchecked(other);
        *satisfied.get_unchecked_mut(s) = *satisfied.get_unchecked(other);
        *possible.get_unchecked_mut(s) = *possible.get_unchecked(other);
    }

    /// Enters s, which is t with this action, in both columns or in that of possible alone.
    ///
    /// # Safety
    /// s is below N, and all sets below it were entered.
    #[inline(always)]
    unsafe fn enter<const BOTH: bool>(&mut self, s: usize, t: usize, action: &Action) {
        let Filling { masks, tables, satisfied, possible } = self;
        let users = tables.users.get_unchecked(t).assume_init() | 1 << (action.user & 15);
        let met = tables.met.get_unchecked(t).assume_init() & action.met;
        let alive = possible.get_unchecked(t) & possible.get_unchecked(s & (s - 1));
        let single = if t == 0 { columns::<BOTH>(met) & masks.units } else { 0 };
        let plus = columns::<BOTH>(met) >> 1 & masks.plus;
        let base = single | plus | tables.joints::<BOTH>(masks, alive, s, t);
        let (bits, right) = masks.finish(base, alive & masks.binary);
        tables.sides.get_unchecked_mut(s).write(Sides { left: bits >> 1, right });
        tables.users.get_unchecked_mut(s).write(users);
        tables.met.get_unchecked_mut(s).write(met);
        tables.same.get_unchecked_mut(s).write(s as u16);
        *possible.get_unchecked_mut(s) = (bits >> 32) as u32;
        if BOTH {
            *satisfied.get_unchecked_mut(s) = bits as u32;
        }
    }

    /// Enters the sets with this action behind those of the actions before it.
    ///
    /// # Safety
    /// Those were entered, and N has room for twice as many.
    #[inline(always)]
    unsafe fn add<const BOTH: bool>(&mut self, before: &[Action], action: &Action) {
        let top = 1 << before.len();
        let places = (0..before.len()).filter(|place| before[*place] == *action);
        let alike: usize = places.map(|place| 1 << place).sum();
        for t in 0..top {
            let missing = alike & !t;
            let same = usize::from(self.tables.same.get_unchecked(t).assume_init());
            if same != t {
                self.copy(top | t, top | same);
            } else if missing != 0 {
                self.copy(top | t, t | missing & missing.wrapping_neg());
            } else {
                self.enter::<BOTH>(top | t, t, action);
            }
        }
    }

    /// Enters the sets of the actions.
    ///
    /// # Safety
    /// N has room for them.
    #[inline(always)]
    unsafe fn add_all(&mut self, actions: &[Action]) {
        for (place, action) in actions.iter().enumerate() {
            self.add::<true>(&actions[..place], action);
        }
    }

    /// Whether all of the first so many actions are possible.
    fn is_possible(&self, actions: usize) -> bool {
        self.possible[(1 << actions) - 1] & 1 == 1
    }
}

/// Enters the sets of the actions into the workspace. It is no part of its caller, whose stack would
/// else be that of the largest tables.
#[inline(never)]
fn enter_all<const N: usize>(
    masks: &Masks,
    actions: &[Action],
    satisfied: &mut [u32; SETS],
    possible: &mut [u32; SETS],
) {
    let mut filling = Filling { masks, tables: Tables::<N>::new(), satisfied, possible };
    // SAFETY: there are no more sets than N.
    unsafe { filling.add_all(actions) }
}

/// Enters the sets of the taken actions, then those with each action tried, one in place of the
/// other. Answers the users of those that are possible.
#[inline(never)]
fn enter_trials<const N: usize>(
    masks: &Masks,
    taken: &[Action],
    trials: &[Trial],
    satisfied: &mut [u32; SETS],
    possible: &mut [u32; SETS],
) -> u16 {
    let mut filling = Filling { masks, tables: Tables::<N>::new(), satisfied, possible };
    // SAFETY: there are no more sets than N.
    unsafe { filling.add_all(taken) };
    let mut users = 0;
    for (place, Trial { action, users: own }) in trials.iter().enumerate() {
        // SAFETY: as above; the sets of the taken actions stay entered.
        unsafe {
            if place + 1 < trials.len() {
                filling.add::<false>(taken, action);
            } else {
                filling.add::<true>(taken, action);
            }
        }
        if filling.is_possible(taken.len() + 1) {
            users |= own;
        }
    }
    users
}

/// The halves of a workspace that is to hold so many sets: the empty one entered, and what lies past
/// them cleared. Where few words are left to write, one call clears them all.
#[inline(always)]
fn halves<'a>(
    shape: &Shape,
    sets: usize,
    workspace: &'a mut [u32; WORDS],
) -> (&'a mut [u32; SETS], &'a mut [u32; SETS]) {
    if sets <= 256 {
        workspace.fill(0);
    }
    let (satisfied, possible) = workspace.split_at_mut(SETS);
    let satisfied: &mut [u32; SETS] = satisfied.try_into().expect("half of the words");
    let possible: &mut [u32; SETS] = possible.try_into().expect("half of the words");
    if sets > 256 {
        satisfied[sets..].fill(0);
        possible[sets..].fill(0);
    }
    satisfied[0] = 0;
    possible[0] = (1 << shape.words) - 1;
    (satisfied, possible)
}

/// Fills the workspace for the actions.
pub fn fill(shape: &Shape, actions: &[Action], workspace: &mut [u32; WORDS]) {
    let mut masks = Masks::new(shape);
    masks.enter(shape);
    let sets = 1 << actions.len();
    let (satisfied, possible) = halves(shape, sets, workspace);
    match sets {
        ..=16 => enter_all::<16>(&masks, actions, satisfied, possible),
        ..=256 => enter_all::<256>(&masks, actions, satisfied, possible),
        _ => enter_all::<SETS>(&masks, actions, satisfied, possible),
    }
}

/// Tries each of some actions after the taken ones, and answers the users of those that are possible.
/// The workspace is filled for the taken actions with the last one tried.
pub fn try_each(
    shape: &Shape,
    taken: &[Action],
    trials: &[Trial],
    workspace: &mut [u32; WORDS],
) -> u16 {
    let mut masks = Masks::new(shape);
    masks.enter(shape);
    let sets = 2 << taken.len();
    let (satisfied, possible) = halves(shape, sets, workspace);
    match sets {
        ..=16 => enter_trials::<16>(&masks, taken, trials, satisfied, possible),
        ..=256 => enter_trials::<256>(&masks, taken, trials, satisfied, possible),
        _ => enter_trials::<SETS>(&masks, taken, trials, satisfied, possible),
    }
}
