//! The workspace.

use crate::raw::WORKSPACE_WORDS;

/// The words in which a call lays down what it finds of every set of actions.
///
/// Where a call fills the workspace, it speaks of n actions in order. A set of them is a mask, bit
/// j for the action at place j, from 0. [`satisfied`](Self::satisfied) and
/// [`possible`](Self::possible) tell of each set below 2ⁿ; beyond that all is zero.
///
/// One workspace serves any number of monitors, one call after the other. The status and a close need
/// none.
#[derive(Clone, Debug, PartialEq, Eq)]
pub struct Workspace {
    words: Box<[u32; Workspace::WORDS]>,
}

impl Workspace {
    /// How many words it has.
    pub const WORDS: usize = WORKSPACE_WORDS;

    /// How many sets of actions it has room for.
    pub const SETS: usize = Self::WORDS / 2;

    /// A workspace that is all zero.
    pub fn new() -> Workspace {
        // by way of a vector, since 32 KiB need not pass over the stack
        let words = vec![0; Self::WORDS].into_boxed_slice();
        Workspace { words: words.try_into().expect("a vector has the length it was made with") }
    }

    /// For each term of the policy whether the set with this mask satisfies it: bit i for the term
    /// that begins at word i.
    ///
    /// # Panics
    /// If the mask is not below [`SETS`](Self::SETS).
    pub fn satisfied(&self, set: usize) -> u32 {
        self.words[..Self::SETS][set]
    }

    /// For each term of the policy whether the set with this mask is possible for it: bit i for the
    /// term that begins at word i.
    ///
    /// # Panics
    /// If the mask is not below [`SETS`](Self::SETS).
    pub fn possible(&self, set: usize) -> u32 {
        self.words[Self::SETS..][set]
    }

    /// All words: those of [`satisfied`](Self::satisfied), then those of
    /// [`possible`](Self::possible).
    pub fn words(&self) -> &[u32; Self::WORDS] {
        &self.words
    }

    /// The words that a call writes.
    pub(crate) fn words_mut(&mut self) -> &mut [u32; Self::WORDS] {
        &mut self.words
    }
}

impl Default for Workspace {
    fn default() -> Workspace {
        Workspace::new()
    }
}
