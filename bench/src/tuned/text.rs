//! A policy's text: read in one pass over its bytes, and written in one pass over its words; the words
//! are tested in the same pass. Eight bytes are looked at or stored at a time, and nothing calls itself.

mod reading;
#[cfg(test)]
mod tests;
mod writing;

pub use reading::read;
pub use writing::write;

/// The bytes that a text begins with, and the most that it may have.
const OPENING: [u8; 8] = *b"policy: ";
const MOST_BYTES: usize = 1024;
/// The most bytes that a policy's text has: 16 sets of 16 users, apart.
const LONGEST: usize = 767;

/// The kinds of words.
const EVERYONE: u32 = 1;
const ROLE: u32 = 2;
const SET: u32 = 3;
const NOT: u32 = 4;
const PLUS: u32 = 5;
const EITHER: u32 = 6;
const BOTH: u32 = 7;
const APART: u32 = 9;

/// At most eight bytes of a text, the first lowest, and how many they are.
#[derive(Clone, Copy)]
struct Piece {
    bytes: u64,
    length: usize,
}

impl Piece {
    const fn new(text: &[u8]) -> Piece {
        let (mut bytes, mut place) = (0, 0);
        while place < text.len() {
            bytes |= (text[place] as u64) << (8 * place);
            place += 1;
        }
        Piece { bytes, length: text.len() }
    }

    /// A number from 0 to 15 with a byte before or behind it.
    const fn numbered(before: &[u8], number: u8, behind: &[u8]) -> Piece {
        let digits = [b'1', b'0' + number % 10];
        let (_, digits) = digits.split_at(if number < 10 { 1 } else { 0 });
        Piece::new(before).then(Piece::new(digits)).then(Piece::new(behind))
    }

    const fn then(self, next: Piece) -> Piece {
        let bytes = self.bytes | next.bytes << (8 * self.length);
        Piece { bytes, length: self.length + next.length }
    }

    /// Whether eight bytes begin with it.
    #[inline(always)]
    fn begins(self, eight: u64) -> bool {
        (eight ^ self.bytes) << (64 - 8 * self.length) == 0
    }
}

const ALL_PIECE: Piece = Piece::new(b"all");
const NOT_PIECE: Piece = Piece::new(b"not ");
const PLUS_PIECE: Piece = Piece::new(b"plus ");

/// What stands between two sides, by kind from either to apart.
const OPERATORS: [Piece; 4] =
    [Piece::new(b" or "), Piece::new(b" both "), Piece::new(b" with "), Piece::new(b" apart ")];

/// The roles, and the members of a set with the comma behind each.
const ROLES: [Piece; 16] = numbers(b"r", b"");
const MEMBERS: [Piece; 16] = numbers(b"", b",");

const fn numbers(before: &[u8], behind: &[u8]) -> [Piece; 16] {
    let mut all = [Piece::new(b""); 16];
    let mut number = 0;
    while number < 16 {
        all[number] = Piece::numbered(before, number as u8, behind);
        number += 1;
    }
    all
}

/// An operator whose second side is not whole yet: where its word stands, where the nots and pluses
/// right before it begin, or itself, and whether its first side is whole. Places are those of 32 words.
#[derive(Clone, Copy)]
struct Open(u32);

impl Open {
    #[inline(always)]
    fn new(place: usize, first: usize) -> Open {
        Open(place as u32 & 31 | (first as u32 & 31) << 8)
    }

    #[inline(always)]
    fn place(self) -> usize {
        self.0 as usize & 31
    }

    #[inline(always)]
    fn first(self) -> usize {
        (self.0 >> 8) as usize & 31
    }

    /// The same with its first side whole.
    #[inline(always)]
    fn between(self) -> Open {
        Open(self.0 | 1 << 16)
    }

    #[inline(always)]
    fn is_between(self) -> bool {
        self.0 >> 16 != 0
    }
}

/// Which words no unit term has (plus, together, apart), and which nots and pluses stand over such a
/// word, if only the first of those that follow each other.
#[derive(Default)]
struct Units {
    joint: u32,
    misplaced: u32,
}

impl Units {
    /// A word of this kind.
    #[inline(always)]
    fn enter(&mut self, place: usize, kind: u32) {
        self.joint |= u32::from(kind == PLUS || kind > BOTH) << (place & 31);
    }

    /// The end of the term at a place, and with it of those that nots and pluses before it begin. If
    /// any of these stands over a word that no unit term has, the first does.
    #[inline(always)]
    fn end(&mut self, first: usize, place: usize) {
        let over = first != place && self.joint >> (first & 31) >> 1 != 0;
        self.misplaced |= u32::from(over) << (first & 31);
    }
}

/// Whether both counts are 1 to 16.
#[inline(always)]
fn counts_fit(users: u8, roles: u8) -> bool {
    users.wrapping_sub(1) < 16 && roles.wrapping_sub(1) < 16
}

/// How many roles there are, and the mask of all users; any numbers where the counts do not fit.
#[inline(always)]
fn limits(users: u8, roles: u8) -> (u32, u32) {
    (roles.into(), (1 << (users & 31)) - 1)
}
