//! The normal form: the operands of a chain are put in normal form, sorted as slices and written.

use oskhrein::{Refusal, MAX_WORDS};

use super::policy::{self, Nobody};

/// The words of a policy, and where its right sides begin.
struct Policy<'a> {
    words: &'a [u32],
    right: [u8; 32],
}

/// Operands that were written one behind the other.
struct Operands {
    words: [u32; MAX_WORDS],
    ends: [(u8, u8); 16],
    count: usize,
    length: usize,
}

impl Policy<'_> {
    /// Writes the operands of the chain of this operator at word i, each in normal form, and
    /// answers where the term ends.
    fn operands(&self, operator: u32, i: usize, into: &mut Operands) -> usize {
        if self.words[i] == operator {
            self.operands(operator, i + 1, into);
            return self.operands(operator, usize::from(self.right[i]), into);
        }
        let start = into.length;
        let mut written = 0;
        let end = self.normal(i, &mut into.words[start..], &mut written);
        into.length += written;
        into.ends[into.count] = (start as u8, into.length as u8);
        into.count += 1;
        end
    }

    /// Writes the normal form of the term at word i, and answers where the term ends.
    fn normal(&self, i: usize, out: &mut [u32], written: &mut usize) -> usize {
        let word = self.words[i];
        match word >> 24 {
            1..=3 => {
                out[0] = word;
                *written = 1;
                i + 1
            }
            4 | 5 => {
                out[0] = word;
                let end = self.normal(i + 1, &mut out[1..], written);
                *written += 1;
                end
            }
            _ => self.chain(i, out, written),
        }
    }

    /// The same for a chain.
    fn chain(&self, i: usize, out: &mut [u32], written: &mut usize) -> usize {
        let operator = self.words[i];
        let mut operands =
            Operands { words: [0; MAX_WORDS], ends: [(0, 0); 16], count: 0, length: 0 };
        let end = self.operands(operator, i, &mut operands);
        let Operands { words, mut ends, count, .. } = operands;
        let slice = |(from, to): (u8, u8)| &words[usize::from(from)..usize::from(to)];
        for at in 1..count {
            let mut place = at;
            while place > 0 && slice(ends[place]) < slice(ends[place - 1]) {
                ends.swap(place, place - 1);
                place -= 1;
            }
        }
        let mut at = 0;
        for (place, operand) in ends[..count].iter().enumerate() {
            if place + 1 < count {
                out[at] = operator;
                at += 1;
            }
            let operand = slice(*operand);
            out[at..at + operand.len()].copy_from_slice(operand);
            at += operand.len();
        }
        *written = at;
        end
    }
}

/// Writes the normal form of a policy at the start of out, or answers 5, 1 to 4 or 13.
pub fn normal_form(users: u8, roles: u8, words: &[u32], out: &mut [u32]) -> Result<(), Refusal> {
    let shape = policy::read(users.into(), roles.into(), words, &mut Nobody)?;
    let out = out.get_mut(..words.len()).ok_or(Refusal::Output)?;
    let policy = Policy { words, right: shape.right };
    policy.normal(0, out, &mut 0);
    Ok(())
}
