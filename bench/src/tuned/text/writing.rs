//! Writing: a piece for each word, and behind a whole term what stands there.

use std::mem::MaybeUninit;

use oskhrein::{Refusal, MAX_WORDS};

use super::*;
use crate::tuned::policy::{self, Nobody};

/// A text, written piece by piece, with room behind it for a piece of eight bytes.
struct Writer<'a> {
    bytes: &'a mut [MaybeUninit<u8>; LONGEST + 8],
    length: usize,
}

impl Writer<'_> {
    /// Adds a piece.
    ///
    /// # Safety
    /// There are at most 767 bytes before it.
    #[inline(always)]
    unsafe fn add(&mut self, piece: Piece) {
        let end = self.bytes.as_mut_ptr().add(self.length);
        end.cast::<[u8; 8]>().write(piece.bytes.to_le_bytes());
        self.length += piece.length;
    }

    /// Adds a set that is not empty.
    ///
    /// # Safety
    /// There are at most 767 bytes with it.
    #[inline(always)]
    unsafe fn add_set(&mut self, mut users: u32) {
        self.add(const { Piece::new(b"{") });
        while users != 0 {
            self.add(MEMBERS[users.trailing_zeros() as usize & 15]);
            users &= users - 1;
        }
        self.length -= 1;
        self.add(const { Piece::new(b"}") });
    }

    /// Writes the text of at most 31 words, if they are an accepted policy.
    ///
    /// There are never more than 767 bytes: but for one, there are no more terms of one word, of 39
    /// bytes at most, than operators, which have 9 at most.
    #[inline(always)]
    fn write(&mut self, words: &[u32], limits: (u32, u32)) -> Option<()> {
        let mut units = Units::default();
        let mut open = [Open::new(0, 0); 32];
        let (mut depth, mut first) = (0, 0);
        for (place, word) in words.iter().enumerate() {
            let (kind, operand) = (word >> 24, word & 0x00ff_ffff);
            units.enter(place, kind);
            // SAFETY: there are never more than 767 bytes.
            unsafe {
                match kind {
                    EVERYONE if operand == 0 => self.add(ALL_PIECE),
                    ROLE if operand < limits.0 => self.add(ROLES[operand as usize & 15]),
                    SET if operand.wrapping_sub(1) < limits.1 => self.add_set(operand),
                    NOT if operand == 0 => {
                        self.add(NOT_PIECE);
                        continue;
                    }
                    PLUS if operand == 0 => {
                        self.add(PLUS_PIECE);
                        continue;
                    }
                    EITHER..=APART if operand == 0 => {
                        self.add(const { Piece::new(b"(") });
                        open[depth & 31] = Open::new(place, first);
                        depth += 1;
                        first = place + 1;
                        continue;
                    }
                    _ => return None,
                }
            }
            units.end(first, place);
            loop {
                let Some(last) = usize::checked_sub(depth, 1) else {
                    let whole = place + 1 == words.len() && units.misplaced == 0;
                    return whole.then_some(());
                };
                let own = open[last & 31];
                if !own.is_between() {
                    let kind = words[own.place()] >> 24;
                    // SAFETY: as before.
                    unsafe { self.add(OPERATORS[(kind - EITHER) as usize & 3]) };
                    open[last & 31] = own.between();
                    first = place + 1;
                    break;
                }
                // SAFETY: as before.
                unsafe { self.add(const { Piece::new(b")") }) };
                units.end(own.first(), own.place());
                depth = last;
            }
        }
        None
    }
}

/// Why words are no policy.
#[cold]
fn refusal(users: u8, roles: u8, words: &[u32]) -> Refusal {
    let read = policy::read(users.into(), roles.into(), words, &mut Nobody);
    read.err().expect("they are no policy")
}

/// Writes the text of a policy at the start of out and answers how many bytes it has, or 5, 1 to 4 or 13.
#[inline(never)]
pub fn write(users: u8, roles: u8, words: &[u32], out: &mut [u8]) -> Result<usize, Refusal> {
    if !counts_fit(users, roles) || words.len() > MAX_WORDS {
        return Err(refusal(users, roles, words));
    }
    let bytes = &mut [const { MaybeUninit::uninit() }; LONGEST + 8];
    let mut text = Writer { bytes, length: 0 };
    // SAFETY: nothing is before it.
    unsafe { text.add(const { Piece::new(&OPENING) }) };
    if text.write(words, limits(users, roles)).is_none() {
        return Err(refusal(users, roles, words));
    }
    let out = out.get_mut(..text.length).ok_or(Refusal::Output)?;
    // SAFETY: the text has so many bytes, all of them written, and does not overlap the output.
    unsafe { out.as_mut_ptr().copy_from_nonoverlapping(text.bytes.as_ptr().cast(), out.len()) };
    Ok(out.len())
}
