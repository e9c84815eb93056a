//! Codes of Huffman's: the more often a symbol is there, the shorter is its code.

use super::Bits;
use super::matches::CodedNumber;
use std::cmp::Reverse;
use std::collections::BinaryHeap;

/// The codes of symbols, and how many bits each has. One without a code has none.
pub(super) struct Codes {
    codes: Vec<u16>,
    lengths: Vec<u8>,
}

impl Codes {
    /// Returns the codes with these lengths: those of one length are numbered in the order of their
    /// symbols, behind the shorter ones.
    pub(super) fn of(lengths: Vec<u8>) -> Codes {
        let mut codes = vec![0; lengths.len()];
        let mut next = 0u16;
        for length in 1..=16 {
            for (symbol, _) in lengths.iter().enumerate().filter(|(_, it)| **it == length) {
                // The highest bit of a code is written first.
                codes[symbol] = next.reverse_bits() >> (16 - length);
                next += 1;
            }
            next <<= 1;
        }
        Codes { codes, lengths }
    }

    pub(super) fn lengths(&self) -> &[u8] {
        &self.lengths
    }

    /// Appends the code of a symbol, and the bits that follow it.
    pub(super) fn push_part(&self, out: &mut Bits, part: &CodedNumber) {
        self.push(out, part.symbol);
        out.push(part.rest.into(), part.bits);
    }

    /// Appends the code of a symbol.
    pub(super) fn push(&self, out: &mut Bits, symbol: usize) {
        out.push(self.codes[symbol].into(), self.lengths[symbol].into());
    }
}

/// Returns how long the codes of symbols are that are there so often. None is longer than
/// `longest`.
pub(super) fn lengths_of(counts: &[u32], longest: u8) -> Vec<u8> {
    let mut counts = counts.to_vec();
    // A tree has two leaves at least.
    for symbol in 0..2 {
        if counts.iter().filter(|count| **count > 0).count() < 2 {
            counts[symbol] = counts[symbol].max(1);
        }
    }
    loop {
        let lengths = depths_of(&counts);
        if lengths.iter().all(|length| *length <= longest) {
            return lengths;
        }
        // The counts come closer to each other, until the tree is flat enough.
        for count in counts.iter_mut().filter(|count| **count > 0) {
            *count = *count / 2 + 1;
        }
    }
}

/// Returns how deep each symbol is in Huffman's tree. One that isn't there is at 0.
fn depths_of(counts: &[u32]) -> Vec<u8> {
    let leaves = (0..).zip(counts).filter(|(_, count)| **count > 0);
    let mut open: BinaryHeap<_> = leaves
        .map(|(node, count)| Reverse((u64::from(*count), node)))
        .collect();
    // By node, the one above it. Those behind the symbols join two nodes each.
    let mut above: Vec<usize> = vec![0; counts.len()];
    while let (Some(Reverse(least)), Some(Reverse(next))) = (open.pop(), open.pop()) {
        let node = above.len();
        above.push(0);
        (above[least.1], above[next.1]) = (node, node);
        open.push(Reverse((least.0 + next.0, node)));
        if open.len() == 1 {
            break;
        }
    }
    let mut depths = vec![0u8; above.len()];
    for node in (0..above.len()).rev().filter(|node| above[*node] > 0) {
        depths[node] = depths[above[node]].saturating_add(1);
    }
    depths.truncate(counts.len());
    depths
}
