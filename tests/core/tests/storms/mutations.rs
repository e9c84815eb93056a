//! Makes texts: pieces are cut out of a text, and others are inserted.

use crate::samples::{JOURNALS, PIECES, SESSIONS};
use support::Random;

/// The greatest number of bytes that are cut out at once.
const MOST_CUT: usize = 24;

/// How many times a text is changed at most. Some aren't changed.
const MOST_CHANGES: usize = 3;

/// A random source of texts.
pub struct Mutator {
    random: Random,
}

impl Mutator {
    /// Creates the source with this seed.
    pub fn new(seed: u64) -> Mutator {
        Mutator {
            random: Random::new(seed),
        }
    }

    /// Returns a number up to this one.
    fn up_to(&mut self, most: usize) -> usize {
        self.random.below(most + 1)
    }

    /// Returns `true` or `false` at random.
    pub fn flips(&mut self) -> bool {
        self.random.below(2) == 0
    }

    /// Returns one of these texts.
    fn one_of(&mut self, texts: &'static [&'static [u8]]) -> &'static [u8] {
        texts[self.random.below(texts.len())]
    }

    /// Splits a text at a place up to `most`.
    fn split<'a>(&mut self, text: &'a [u8], most: usize) -> (&'a [u8], &'a [u8]) {
        text.split_at(self.up_to(most.min(text.len())))
    }

    /// Returns what is inserted into a text: a piece, or another part of that text.
    fn piece<'a>(&mut self, text: &'a [u8]) -> &'a [u8] {
        if self.flips() {
            return self.one_of(&PIECES);
        }
        let (_, rest) = self.split(text, text.len());
        let (part, _) = self.split(rest, MOST_CUT);
        part
    }

    /// Returns the text with a change at one place.
    fn changed(&mut self, text: &[u8]) -> Vec<u8> {
        let (front, rest) = self.split(text, text.len());
        let (_, back) = self.split(rest, MOST_CUT);
        let piece = self.piece(text);
        [front, piece, back].concat()
    }

    /// Returns the text with changes at some places.
    fn mutated(&mut self, text: &[u8]) -> Vec<u8> {
        let mut made = text.to_vec();
        for _ in 0..self.up_to(MOST_CHANGES) {
            made = self.changed(&made);
        }
        made
    }

    /// Returns a session.
    pub fn session(&mut self) -> Vec<u8> {
        let text = self.one_of(&SESSIONS);
        self.mutated(text)
    }

    /// Returns a journal.
    pub fn journal(&mut self) -> Vec<u8> {
        let text = self.one_of(&JOURNALS);
        self.mutated(text)
    }
}
