//! Reading a policy in one pass, from its last word to its first, and with it who meets its unit
//! terms.

use oskhrein::{Refusal, MAX_USERS, MAX_WORDS};

/// What one pass finds of a policy: masks over its words, and for each word with two sides where
/// the right one begins.
#[derive(Clone, Copy, Default)]
pub struct Shape {
    /// How many words.
    pub words: usize,
    /// Words that begin unit terms.
    pub units: u32,
    /// Words that are plus.
    pub plus: u32,
    /// Words of either that begin no unit term.
    pub either: u32,
    /// Words of both that begin no unit term.
    pub both: u32,
    /// Words of together.
    pub together: u32,
    /// Words of apart.
    pub apart: u32,
    /// Where right sides begin.
    pub right: [u8; 32],
}

/// Whose meeting of unit terms is looked for in the pass: a mask of users for each word.
pub trait Who {
    /// Those who hold some role.
    fn everyone(&self) -> u32;
    /// Those who hold a role.
    fn role(&self, role: u32) -> u32;
    /// Those of a set of users who hold some role.
    fn set(&self, users: u32) -> u32;
    /// Those who meet the unit term at this word.
    fn at(&self, place: usize) -> u32;
    /// Keeps who meets the unit term at this word.
    fn note(&mut self, place: usize, who: u32);
}

/// No user.
pub struct Nobody;

impl Who for Nobody {
    #[inline(always)]
    fn everyone(&self) -> u32 {
        0
    }

    #[inline(always)]
    fn role(&self, _role: u32) -> u32 {
        0
    }

    #[inline(always)]
    fn set(&self, _users: u32) -> u32 {
        0
    }

    #[inline(always)]
    fn at(&self, _place: usize) -> u32 {
        0
    }

    #[inline(always)]
    fn note(&mut self, _place: usize, _who: u32) {}
}

/// One user, in bit 0.
pub struct One {
    user: u32,
    held: u32,
    some: u32,
    /// Bit i: the user meets the unit term at word i.
    pub met: u32,
}

impl One {
    /// A user who holds these roles.
    pub fn new(user: u8, held: u16) -> One {
        One { user: user.into(), held: held.into(), some: u32::from(held != 0), met: 0 }
    }
}

impl Who for One {
    #[inline(always)]
    fn everyone(&self) -> u32 {
        self.some
    }

    #[inline(always)]
    fn role(&self, role: u32) -> u32 {
        self.held >> (role & 31)
    }

    #[inline(always)]
    fn set(&self, users: u32) -> u32 {
        users >> (self.user & 31) & self.some
    }

    #[inline(always)]
    fn at(&self, place: usize) -> u32 {
        self.met >> (place & 31)
    }

    #[inline(always)]
    fn note(&mut self, place: usize, who: u32) {
        self.met |= (who & 1) << (place & 31);
    }
}

/// All users at once, bit u for user u.
pub struct All {
    holders: [u16; MAX_USERS],
    some: u16,
    who: [u16; 32],
}

impl All {
    /// The users with these rows of roles who are in the mask.
    pub fn new(rows: &[u16], users: u32) -> All {
        let mut all = All { holders: [0; MAX_USERS], some: 0, who: [0; 32] };
        let mut left = users;
        while left != 0 {
            let own = (left & left.wrapping_neg()) as u16;
            let mut held =
                u32::from(rows.get(left.trailing_zeros() as usize).map_or(0, |row| *row));
            left &= left - 1;
            all.some |= if held != 0 { own } else { 0 };
            while held != 0 {
                all.holders[held.trailing_zeros() as usize & 15] |= own;
                held &= held - 1;
            }
        }
        all
    }

    /// The users who meet the same unit terms as this one.
    pub fn like(&self, user: u32, shape: &Shape) -> u32 {
        let alike = |who: &u16| if who >> (user & 15) & 1 == 1 { *who } else { !*who };
        self.who[..shape.words].iter().map(alike).fold(u16::MAX, |all, one| all & one).into()
    }

    /// Bit i: the user meets the unit term at word i.
    pub fn met(&self, user: u32, shape: &Shape) -> u32 {
        let bit = |(place, who): (usize, &u16)| (u32::from(*who) >> (user & 15) & 1) << place;
        self.who[..shape.words].iter().enumerate().map(bit).fold(0, |met, bit| met | bit)
    }
}

impl Who for All {
    #[inline(always)]
    fn everyone(&self) -> u32 {
        self.some.into()
    }

    #[inline(always)]
    fn role(&self, role: u32) -> u32 {
        self.holders[role as usize & 15].into()
    }

    #[inline(always)]
    fn set(&self, users: u32) -> u32 {
        users & u32::from(self.some)
    }

    #[inline(always)]
    fn at(&self, place: usize) -> u32 {
        self.who[place & 31].into()
    }

    #[inline(always)]
    fn note(&mut self, place: usize, who: u32) {
        self.who[place & 31] = who as u16;
    }
}

/// What was read so far. The terms are a mask of their first words: the last one read is the lowest.
/// So are the bad words, and each not and plus over a term that is no unit term.
#[derive(Default)]
struct Reader {
    shape: Shape,
    terms: u32,
    broken: bool,
    bad: u32,
    misplaced: u32,
}

impl Reader {
    /// Whether a unit term begins at this word.
    #[inline(always)]
    fn is_unit(&self, place: usize) -> bool {
        self.shape.units >> (place & 31) & 1 == 1
    }

    /// A not or a plus: it takes the last term, which is to be a unit term.
    #[inline(always)]
    fn one_side(&mut self, i: usize) {
        self.broken |= self.terms == 0;
        self.misplaced |= u32::from(!self.is_unit(i + 1)) << (i & 31);
        self.terms = self.terms & self.terms.wrapping_sub(1) | 1 << (i & 31);
    }

    /// An operator: it takes the last two terms. Answers where its right side begins.
    #[inline(always)]
    fn two_sides(&mut self, i: usize) -> usize {
        let behind = self.terms & self.terms.wrapping_sub(1);
        let right = behind.trailing_zeros() as usize & 31;
        self.broken |= behind == 0;
        self.terms = behind & behind.wrapping_sub(1) | 1 << (i & 31);
        self.shape.right[i & 31] = right as u8;
        right
    }

    /// Enters the word at place i; false for one that is out of layout or names what is not declared.
    /// Roles are below the first limit, masks of users, less one, below the second.
    #[inline(always)]
    fn enter(&mut self, i: usize, word: u32, limits: (u32, u32), who: &mut impl Who) -> bool {
        let own = 1 << (i & 31);
        let operand = word & 0x00ff_ffff;
        let meets = match word >> 24 {
            1 if operand == 0 => who.everyone(),
            2 if operand < limits.0 => who.role(operand),
            3 if operand.wrapping_sub(1) < limits.1 => who.set(operand),
            4 if operand == 0 => {
                self.one_side(i);
                if !self.is_unit(i + 1) {
                    return true;
                }
                who.everyone() & !who.at(i + 1)
            }
            5 if operand == 0 => {
                self.one_side(i);
                self.shape.plus |= own;
                return true;
            }
            kind @ 6..=9 if operand == 0 => {
                let right = self.two_sides(i);
                match (kind, self.is_unit(i + 1) && self.is_unit(right)) {
                    (6, true) => who.at(i + 1) | who.at(right),
                    (7, true) => who.at(i + 1) & who.at(right),
                    _ => {
                        *self.shape.of_kind(kind) |= own;
                        return true;
                    }
                }
            }
            _ => return false,
        };
        self.terms |= own;
        self.shape.units |= own;
        who.note(i, meets);
        true
    }
}

impl Shape {
    /// The words of this kind of operator that begin no unit term.
    #[inline(always)]
    fn of_kind(&mut self, kind: u32) -> &mut u32 {
        match kind {
            6 => &mut self.either,
            7 => &mut self.both,
            8 => &mut self.together,
            _ => &mut self.apart,
        }
    }
}

/// Where the first term ends; where it does not, the words run out at their end.
#[cold]
fn end_of_first(words: &[u32]) -> usize {
    let mut open = 1;
    for (i, word) in words.iter().enumerate() {
        match word >> 24 {
            1..=3 => open -= 1,
            6..=9 => open += 1,
            _ => {}
        }
        if open == 0 {
            return i + 1;
        }
    }
    words.len()
}

/// Reads a policy: its shape, or 5, 1, 2, 3, 4, looked for in that order.
#[inline(always)]
pub fn read(users: u32, roles: u32, words: &[u32], who: &mut impl Who) -> Result<Shape, Refusal> {
    if users.wrapping_sub(1) > 15 || roles.wrapping_sub(1) > 15 {
        return Err(Refusal::Counts);
    }
    if words.len().wrapping_sub(1) >= MAX_WORDS {
        return Err(Refusal::WordCount);
    }
    let limits = (roles, (1u32 << (users & 31)) - 1);
    let mut reader = Reader::default();
    reader.shape.words = words.len();
    for (i, word) in words.iter().enumerate().rev() {
        if !reader.enter(i, *word, limits, who) {
            reader.bad |= 1 << (i & 31);
        }
    }
    let first = |mask: u32| mask.trailing_zeros() as usize;
    match () {
        () if reader.bad != 0 => Err(Refusal::Word { place: first(reader.bad) }),
        () if reader.broken || reader.terms != 1 => {
            Err(Refusal::Term { place: end_of_first(words) })
        }
        () if reader.misplaced != 0 => Err(Refusal::Unit { place: first(reader.misplaced) }),
        () => Ok(reader.shape),
    }
}
