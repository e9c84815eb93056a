//! Packs bytes as browsers unpack them: by deflate (RFC 1951) between zlib's first bytes and its
//! checksum (RFC 1950). The crate has no dependencies.

mod codes;
mod matches;

use codes::{Codes, lengths_of};
use matches::{Matches, Token};
use yovanelum_record::listed::PushAll;

/// How many tokens a block has at most. Each block has codes of its own.
const BLOCK: usize = 1 << 16;

/// The symbol that ends a block.
const END: usize = 256;

const LITERALS: usize = 286;
const DISTANCES: usize = 30;

/// The longest code of a symbol, and of a length of a code.
const LONGEST: u8 = 15;
const LONGEST_OF_LENGTH: u8 = 7;

/// The order in which the lengths of the codes of lengths are written.
const ORDER: [usize; 19] = [
    16, 17, 18, 0, 8, 7, 9, 6, 10, 5, 11, 4, 12, 3, 13, 2, 14, 1, 15,
];

/// The symbol for 11 to 138 codes of length 0, with as many bits for how many they are.
const ZEROS: usize = 18;
const ZEROS_BITS: u32 = 7;
const LEAST_ZEROS: usize = 11;
const ZEROS_AT_ONCE: usize = 138;

/// Returns these bytes packed.
pub(super) fn packed(bytes: &[u8]) -> Vec<u8> {
    let mut out = Bits::new();
    out.push(0x78, 8);
    out.push(0x9c, 8);
    let mut matches = Matches::of(bytes);
    let mut tokens = Vec::with_capacity(BLOCK);
    loop {
        tokens.clear();
        tokens.push_all(matches.by_ref().take(BLOCK));
        let is_last = tokens.len() < BLOCK;
        push_block(&mut out, &tokens, is_last);
        if is_last {
            break;
        }
    }
    let mut packed = out.bytes();
    packed.push_all(checksum(bytes).to_be_bytes());
    packed
}

/// Appends a block with codes of its own.
fn push_block(out: &mut Bits, tokens: &[Token], is_last: bool) {
    let (mut literals, mut distances) = ([0; LITERALS], [0; DISTANCES]);
    literals[END] = 1;
    for token in tokens {
        literals[token.symbol().symbol] += 1;
        if let Some(distance) = token.distance() {
            distances[distance.symbol] += 1;
        }
    }
    let literals = Codes::of(lengths_of(&literals, LONGEST));
    let distances = Codes::of(lengths_of(&distances, LONGEST));
    out.push(u64::from(is_last), 1);
    out.push(2, 2);
    push_codes(out, &literals, &distances);
    for token in tokens {
        literals.push_part(out, &token.symbol());
        if let Some(distance) = token.distance() {
            distances.push_part(out, &distance);
        }
    }
    literals.push(out, END);
}

/// Appends the lengths of both codes, by a code of their own.
fn push_codes(out: &mut Bits, literals: &Codes, distances: &Codes) {
    let both = [literals.lengths(), distances.lengths()].concat();
    let symbols = runs_of(&both);
    let mut counts = [0; ORDER.len()];
    for (symbol, _) in &symbols {
        counts[*symbol] += 1;
    }
    let codes = Codes::of(lengths_of(&counts, LONGEST_OF_LENGTH));
    out.push(LITERALS as u64 - 257, 5);
    out.push(DISTANCES as u64 - 1, 5);
    out.push(ORDER.len() as u64 - 4, 4);
    for symbol in ORDER {
        out.push(codes.lengths()[symbol].into(), 3);
    }
    for (symbol, zeros) in &symbols {
        codes.push(out, *symbol);
        if *symbol == ZEROS {
            out.push((zeros - LEAST_ZEROS) as u64, ZEROS_BITS);
        }
    }
}

/// Returns lengths as symbols. Where many are 0, one symbol stands for them, with how many they
/// are.
fn runs_of(lengths: &[u8]) -> Vec<(usize, usize)> {
    let mut symbols = vec![];
    for run in lengths.chunk_by(|left, right| left == right) {
        let mut left = run.len();
        while run[0] == 0 && left >= LEAST_ZEROS {
            let zeros = left.min(ZEROS_AT_ONCE);
            symbols.push((ZEROS, zeros));
            left -= zeros;
        }
        symbols.resize(symbols.len() + left, (run[0].into(), 1));
    }
    symbols
}

/// The checksum Adler-32.
fn checksum(bytes: &[u8]) -> u32 {
    const PRIME: u32 = 65_521;
    // As many bytes as two sums of 32 bits take without the remainder.
    const SUMMED: usize = 5552;
    let (mut low, mut high) = (1, 0);
    for part in bytes.chunks(SUMMED) {
        for byte in part {
            low += u32::from(*byte);
            high += low;
        }
        low %= PRIME;
        high %= PRIME;
    }
    high << 16 | low
}

/// Bytes that are written bit by bit, from the lowest on.
struct Bits {
    bytes: Vec<u8>,
    open: u64,
    count: u32,
}

impl Bits {
    fn new() -> Bits {
        Bits {
            bytes: vec![],
            open: 0,
            count: 0,
        }
    }

    /// Appends the lowest bits of a number, which has no others. They are 16 at most.
    fn push(&mut self, value: u64, bits: u32) {
        self.open |= value << self.count;
        self.count += bits;
        if self.count >= 32 {
            self.bytes.push_all((self.open as u32).to_le_bytes());
            self.open >>= 32;
            self.count -= 32;
        }
    }

    /// Returns all bytes. The last one is filled up with bits that are 0.
    fn bytes(mut self) -> Vec<u8> {
        let rest = self.count.div_ceil(8) as usize;
        self.bytes.extend(&self.open.to_le_bytes()[..rest]);
        self.bytes
    }
}
