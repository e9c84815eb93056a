//! What of a text is there before: it is a token of its length and how far back it is.

/// How far back a match may be.
const WINDOW: usize = 1 << 15;

/// How long a match is at least and at most.
const LEAST: usize = 4;
const LONGEST: usize = 258;

/// How many earlier places with the same hash are tried.
const TRIED: usize = 8;

/// From this length on no longer match is looked for.
const LONG: usize = 32;

const HASH_BITS: u32 = 15;

/// A byte as it is, with the length 0, or a match.
#[derive(Clone, Copy)]
pub(super) struct Token {
    length: u16,
    /// The byte, or how far back the match is, less 1.
    value: u16,
}

/// A symbol, with the bits of a number that follow it.
pub(super) struct CodedNumber {
    pub(super) symbol: usize,
    pub(super) rest: u16,
    pub(super) bits: u32,
}

impl CodedNumber {
    /// That of a number, where `1 << fine` symbols stand for each power of two, and the first ones
    /// for themselves.
    fn of(number: u16, fine: u32) -> CodedNumber {
        let bits = (number | 1).ilog2().saturating_sub(fine);
        let symbol = usize::from(number >> bits) + ((bits as usize) << fine);
        CodedNumber {
            symbol,
            rest: number & ((1 << bits) - 1),
            bits,
        }
    }
}

impl Token {
    /// The symbol of a byte or of a length.
    pub(super) fn symbol(self) -> CodedNumber {
        match self.length {
            0 => CodedNumber {
                symbol: self.value.into(),
                rest: 0,
                bits: 0,
            },
            258 => CodedNumber {
                symbol: 285,
                rest: 0,
                bits: 0,
            },
            length => {
                let part = CodedNumber::of(length - 3, 2);
                CodedNumber {
                    symbol: 257 + part.symbol,
                    ..part
                }
            }
        }
    }

    /// How far back a match is.
    pub(super) fn distance(self) -> Option<CodedNumber> {
        (self.length > 0).then(|| CodedNumber::of(self.value, 1))
    }
}

/// The tokens of a text.
pub(super) struct Matches<'a> {
    text: &'a [u8],
    at: usize,
    /// By hash, the last place that has it, plus 1; and by place in the window, the one before it
    /// with the same.
    last: Vec<u32>,
    before: Vec<u32>,
}

impl<'a> Matches<'a> {
    pub(super) fn of(text: &'a [u8]) -> Matches<'a> {
        Matches {
            text,
            at: 0,
            last: vec![0; 1 << HASH_BITS],
            before: vec![0; WINDOW],
        }
    }

    /// Notes a place, and returns the one before it with the same hash, plus 1.
    fn note(&mut self, place: usize) -> usize {
        if place + LEAST > self.text.len() {
            return 0;
        }
        let text = self.text;
        let bytes = [
            text[place],
            text[place + 1],
            text[place + 2],
            text[place + 3],
        ];
        let hash = u32::from_le_bytes(bytes).wrapping_mul(0x9e37_79b1) >> (32 - HASH_BITS);
        let before = self.last[hash as usize];
        self.last[hash as usize] = place as u32 + 1;
        self.before[place % WINDOW] = before;
        before as usize
    }

    /// Returns the length of the longest match here that is found, and how far back it is.
    fn longest(&self, mut candidate: usize) -> (usize, usize) {
        let (mut length, mut back) = (0, 0);
        for _ in 0..TRIED {
            // 0 stands for none.
            if candidate == 0 || candidate - 1 + WINDOW <= self.at || length >= LONG {
                break;
            }
            let place = candidate - 1;
            let same = self.same(place, length);
            if same > length {
                (length, back) = (same, self.at - place);
            }
            candidate = self.before[place % WINDOW] as usize;
        }
        (length, back)
    }

    /// Returns how many bytes are the same here and there, or 0 if they aren't more than this many.
    ///
    /// A test without optimization spends most of its time here, so it is a plain loop.
    fn same(&self, place: usize, least: usize) -> usize {
        let (text, at) = (self.text, self.at);
        let most = LONGEST.min(text.len() - at);
        if least >= most || text[at + least] != text[place + least] {
            return 0;
        }
        let mut same = 0;
        while same < most && text[at + same] == text[place + same] {
            same += 1;
        }
        same
    }
}

impl Iterator for Matches<'_> {
    type Item = Token;

    fn next(&mut self) -> Option<Token> {
        let byte = *self.text.get(self.at)?;
        let candidate = self.note(self.at);
        let (length, back) = self.longest(candidate);
        if length < LEAST {
            self.at += 1;
            return Some(Token {
                length: 0,
                value: byte.into(),
            });
        }
        for place in self.at + 1..self.at + length {
            self.note(place);
        }
        self.at += length;
        Some(Token {
            length: length as u16,
            value: (back - 1) as u16,
        })
    }
}
