//! Reading: what a term begins with, then what stands behind a whole term, in turn.

use std::mem::MaybeUninit;

use oskhrein::{Refusal, MAX_WORDS};

use super::*;

/// The byte at a place of eight.
#[inline(always)]
fn byte(eight: u64, place: usize) -> u8 {
    (eight >> (8 * place)) as u8
}

/// The number from 0 to 15 that eight bytes begin with, and how many bytes it has.
#[inline(always)]
fn number(eight: u64) -> Option<(u32, usize)> {
    let digit = |place| byte(eight, place).wrapping_sub(b'0');
    match (digit(0), digit(1)) {
        (1, second @ 0..=5) => Some((10 + u32::from(second), 2)),
        (first @ 0..=9, _) => Some((first.into(), 1)),
        _ => None,
    }
}

/// Some users and one more, whose bit is above theirs, by the last digit of the number and the most that
/// this may be.
#[inline(always)]
fn with_user(users: u32, ten: u8, digit: u8, most: u8) -> Option<u32> {
    if digit > most {
        return None;
    }
    let own = 1 << (ten + digit);
    (own > users).then_some(users | own)
}

/// A text of eight bytes or more, its last eight, and the place that it is read at, at most its length:
/// no byte is taken that is not there.
struct Bytes<'a> {
    text: &'a [u8],
    last: u64,
    place: usize,
}

impl Bytes<'_> {
    /// The next eight bytes; those behind the end are zero.
    #[inline(always)]
    fn next(&self) -> u64 {
        let left = self.text.len() - self.place;
        if left < 8 {
            return self.last.checked_shr(64 - 8 * left as u32).unwrap_or(0);
        }
        // SAFETY: eight bytes are left.
        let eight = unsafe { self.text.as_ptr().add(self.place).cast::<[u8; 8]>().read() };
        u64::from_le_bytes(eight)
    }

    /// A role, with its `r`.
    #[inline(always)]
    fn role(&mut self, eight: u64) -> Option<u32> {
        let (role, length) = number(eight >> 8)?;
        self.place += 1 + length;
        Some(role)
    }

    /// The users of a set, with its `{`. Numbers of one digit and of two go different ways, so that the
    /// next place does not wait for what was read.
    #[inline(always)]
    fn set(&mut self) -> Option<u32> {
        let mut users = 0;
        self.place += 1;
        loop {
            let eight = self.next();
            let digit = |place| byte(eight, place).wrapping_sub(b'0');
            match byte(eight, 1) {
                b',' => {
                    users = with_user(users, 0, digit(0), 9)?;
                    self.place += 2;
                }
                b'}' => {
                    self.place += 2;
                    return with_user(users, 0, digit(0), 9);
                }
                _ if byte(eight, 0) != b'1' => return None,
                _ => {
                    users = with_user(users, 10, digit(1), 5)?;
                    self.place += 3;
                    match byte(eight, 2) {
                        b',' => {}
                        b'}' => return Some(users),
                        _ => return None,
                    }
                }
            }
        }
    }

    /// The operator between two sides.
    #[inline(always)]
    fn operator(&mut self, eight: u64) -> Option<u32> {
        let kind = OPERATORS.iter().position(|piece| piece.begins(eight))?;
        self.place += OPERATORS[kind].length;
        Some(EITHER + kind as u32)
    }
}

/// What is read of a text. Of more than 32 words only the count is of use.
struct Reader<'a> {
    bytes: Bytes<'a>,
    words: &'a mut [u32; 32],
    count: usize,
    /// Where the nots and pluses begin that were read last, or the next word.
    first: usize,
    units: Units,
    /// The words that name what is not declared: roles below the first limit are, and users whose mask
    /// is not above the second.
    undeclared: u32,
    limits: (u32, u32),
    open: &'a mut [MaybeUninit<Open>; MOST_BYTES],
    depth: usize,
}

impl Reader<'_> {
    /// Enters a word.
    #[inline(always)]
    fn enter(&mut self, place: usize, kind: u32, operand: u32, declared: bool) {
        self.words[place & 31] = kind << 24 | operand;
        self.units.enter(place, kind);
        self.undeclared |= u32::from(!declared) << (place & 31);
    }

    /// What a term begins with, up to a term of one word, or none.
    #[inline(always)]
    fn begin(&mut self) -> Option<()> {
        loop {
            let (eight, place) = (self.bytes.next(), self.count);
            self.count += 1;
            match byte(eight, 0) {
                b'(' => {
                    self.open[self.depth].write(Open::new(place, self.first));
                    self.depth += 1;
                    self.bytes.place += 1;
                    self.first = self.count;
                    continue;
                }
                b'n' if NOT_PIECE.begins(eight) => {
                    self.enter(place, NOT, 0, true);
                    self.bytes.place += NOT_PIECE.length;
                    continue;
                }
                b'p' if PLUS_PIECE.begins(eight) => {
                    self.enter(place, PLUS, 0, true);
                    self.bytes.place += PLUS_PIECE.length;
                    continue;
                }
                b'r' => {
                    let role = self.bytes.role(eight)?;
                    self.enter(place, ROLE, role, role < self.limits.0);
                }
                b'{' => {
                    let users = self.bytes.set()?;
                    self.enter(place, SET, users, users <= self.limits.1);
                }
                b'a' if ALL_PIECE.begins(eight) => {
                    self.enter(place, EVERYONE, 0, true);
                    self.bytes.place += ALL_PIECE.length;
                }
                _ => return None,
            }
            self.units.end(self.first, place);
            return Some(());
        }
    }

    /// What stands behind a whole term, up to where the next one begins: true at the end of the text.
    #[inline(always)]
    fn go_on(&mut self) -> Option<bool> {
        while let Some(last) = self.depth.checked_sub(1) {
            // SAFETY: it was written when the depth became this one.
            let own = unsafe { self.open[last].assume_init() };
            let eight = self.bytes.next();
            if !own.is_between() {
                let kind = self.bytes.operator(eight)?;
                self.enter(own.place(), kind, 0, true);
                self.open[last].write(own.between());
                self.first = self.count;
                return Some(false);
            }
            if byte(eight, 0) != b')' {
                return None;
            }
            self.bytes.place += 1;
            self.units.end(own.first(), own.place());
            self.depth = last;
        }
        (self.bytes.place == self.bytes.text.len()).then_some(true)
    }
}

/// Writes the words of a text at the start of out and answers how many, or 20, 21, 5, 1, 2, 4 or 13.
#[inline(never)]
pub fn read(users: u8, roles: u8, text: &[u8], out: &mut [u32]) -> Result<usize, Refusal> {
    let (Some(&OPENING), Some(last)) = (text.first_chunk(), text.last_chunk()) else {
        return Err(Refusal::Opening);
    };
    if text.len() > MOST_BYTES {
        return Err(Refusal::Text);
    }
    let mut words = [0; 32];
    let mut reader = Reader {
        bytes: Bytes { text, last: u64::from_le_bytes(*last), place: OPENING.len() },
        words: &mut words,
        count: 0,
        first: 0,
        units: Units::default(),
        undeclared: 0,
        limits: limits(users, roles),
        open: &mut [const { MaybeUninit::uninit() }; MOST_BYTES],
        depth: 0,
    };
    loop {
        reader.begin().ok_or(Refusal::Text)?;
        if reader.go_on().ok_or(Refusal::Text)? {
            break;
        }
    }
    let Reader { count, units: Units { misplaced, .. }, undeclared, .. } = reader;
    let first = |mask: u32| mask.trailing_zeros() as usize;
    match () {
        () if !counts_fit(users, roles) => Err(Refusal::Counts),
        () if count > MAX_WORDS => Err(Refusal::WordCount),
        () if undeclared != 0 => Err(Refusal::Word { place: first(undeclared) }),
        () if misplaced != 0 => Err(Refusal::Unit { place: first(misplaced) }),
        () => {
            let out = out.get_mut(..count).ok_or(Refusal::Output)?;
            out.copy_from_slice(&words[..count & 31]);
            Ok(count)
        }
    }
}
