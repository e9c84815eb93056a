//! Unpacks what is packed, for tests: as RFC 1951 describes it, bit by bit.

use std::collections::HashMap;

struct BitReader<'a> {
    bytes: &'a [u8],
    at: usize,
}

impl BitReader<'_> {
    fn bit(&mut self) -> usize {
        let bit = self.bytes[self.at / 8] >> (self.at % 8) & 1;
        self.at += 1;
        bit.into()
    }

    fn bits(&mut self, count: usize) -> usize {
        (0..count).fold(0, |number, place| number | self.bit() << place)
    }

    /// Reads a symbol, whose code begins with its highest bit.
    fn symbol(&mut self, codes: &SymbolTable) -> usize {
        let (mut length, mut code) = (0, 0);
        loop {
            (length, code) = (length + 1, code << 1 | self.bit());
            if let Some(symbol) = codes.get(&(length, code)) {
                return *symbol;
            }
        }
    }
}

/// By the length and the number of each code, its symbol.
type SymbolTable = HashMap<(usize, usize), usize>;

fn codes_of(lengths: &[usize]) -> SymbolTable {
    let (mut codes, mut next) = (SymbolTable::new(), 0);
    for length in 1..16 {
        for symbol in (0..lengths.len()).filter(|it| lengths[*it] == length) {
            codes.insert((length, next), symbol);
            next += 1;
        }
        next <<= 1;
    }
    codes
}

/// Returns what these bytes in zlib's form hold. Blocks have codes of their own.
pub(super) fn unpacked(bytes: &[u8]) -> Vec<u8> {
    assert_eq!(bytes[..2], [0x78, 0x9c]);
    let mut bits = BitReader { bytes, at: 16 };
    let mut out = vec![];
    loop {
        let is_last = bits.bit() == 1;
        assert_eq!(bits.bits(2), 2);
        let (literals, distances) = codes(&mut bits);
        while push_next(&mut out, &mut bits, &literals, &distances) {}
        if is_last {
            break;
        }
    }
    let rest = &bytes[bits.at.div_ceil(8)..];
    assert_eq!(rest, adler(&out).to_be_bytes());
    out
}

fn codes(bits: &mut BitReader<'_>) -> (SymbolTable, SymbolTable) {
    const ORDER: [usize; 19] = [
        16, 17, 18, 0, 8, 7, 9, 6, 10, 5, 11, 4, 12, 3, 13, 2, 14, 1, 15,
    ];
    let (literals, distances) = (bits.bits(5) + 257, bits.bits(5) + 1);
    let mut of_lengths = [0; 19];
    for symbol in ORDER.iter().take(bits.bits(4) + 4) {
        of_lengths[*symbol] = bits.bits(3);
    }
    let of_lengths = codes_of(&of_lengths);
    let mut lengths = vec![];
    while lengths.len() < literals + distances {
        match bits.symbol(&of_lengths) {
            16 => {
                let last = *lengths.last().unwrap();
                lengths.extend(vec![last; 3 + bits.bits(2)]);
            }
            17 => lengths.extend(vec![0; 3 + bits.bits(3)]),
            18 => lengths.extend(vec![0; 11 + bits.bits(7)]),
            length => lengths.push(length),
        }
    }
    let distances = lengths.split_off(literals);
    (codes_of(&lengths), codes_of(&distances))
}

/// Appends what the next symbol stands for, unless it ends the block.
fn push_next(
    out: &mut Vec<u8>,
    bits: &mut BitReader<'_>,
    literals: &SymbolTable,
    distances: &SymbolTable,
) -> bool {
    let length = match bits.symbol(literals) {
        256 => return false,
        byte @ 0..256 => {
            out.push(byte as u8);
            return true;
        }
        285 => 258,
        symbol @ 257..265 => symbol - 254,
        symbol => {
            let more = (symbol - 261) / 4;
            3 + ((4 + (symbol - 261) % 4) << more) + bits.bits(more)
        }
    };
    let back = match bits.symbol(distances) {
        symbol @ 0..4 => symbol + 1,
        symbol => {
            let more = symbol / 2 - 1;
            1 + ((2 + symbol % 2) << more) + bits.bits(more)
        }
    };
    for _ in 0..length {
        out.push(out[out.len() - back]);
    }
    true
}

fn adler(bytes: &[u8]) -> u32 {
    let (low, high) = bytes.iter().fold((1u64, 0u64), |(low, high), byte| {
        let low = (low + u64::from(*byte)) % 65_521;
        (low, (high + low) % 65_521)
    });
    (high << 16 | low) as u32
}

#[cfg(test)]
mod tests {
    use super::super::deflate::packed;
    use super::*;

    #[test]
    fn what_is_packed_is_unpacked_the_same() {
        let mut noise = 1u32;
        let mut random = |most: u32| {
            noise = noise.wrapping_mul(1_664_525).wrapping_add(1_013_904_223);
            (noise >> 16) % most
        };
        let texts = [
            vec![],
            vec![7],
            vec![b'a'; 100_000],
            (0..70_000).map(|_| random(256) as u8).collect(),
            (0..70_000).map(|_| b"01 \n"[random(4) as usize]).collect(),
            // A repeat of exactly the window, and of one more.
            [vec![b'x'; 32_768], b"abcdefgh".to_vec()]
                .concat()
                .repeat(3),
        ];
        for text in texts {
            assert!(unpacked(&packed(&text)) == text, "{} bytes", text.len());
        }
    }

    /// The counts of Fibonacci make Huffman's tree as deep as it gets.
    #[test]
    fn codes_are_no_longer_than_the_format_has_them() {
        let (mut count, mut next) = (1usize, 1usize);
        let mut text = vec![];
        for symbol in 0..24u8 {
            text.extend(vec![symbol; count]);
            (count, next) = (next, count + next);
        }
        // No two of four bytes are alike where the order is mixed.
        let mixed: Vec<_> = (0..text.len())
            .map(|at| text[at * 7_919 % text.len()])
            .collect();
        assert!(unpacked(&packed(&mixed)) == mixed);
    }
}
