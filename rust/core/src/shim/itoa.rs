//! Numbers in decimal without an allocation, as the crate `itoa` has them: two digits at a time.

/// The digits of `u64::MAX`.
const MOST: usize = 20;

/// The two digits of each number below 100. It is a `static`, since unoptimized code copies a
/// constant wherever it is indexed.
static PAIRS: [[u8; 2]; 100] = {
    let mut pairs = [[b'0'; 2]; 100];
    let mut n = 0;
    while n < 100 {
        pairs[n] = [b'0' + (n / 10) as u8, b'0' + (n % 10) as u8];
        n += 1;
    }
    pairs
};

/// Room for the digits of one number.
pub struct Buffer {
    bytes: [u8; MOST],
}

/// The digits of a number. The sources ask for their bytes alone, so nothing has to check here that
/// they are a text.
#[derive(Clone, Copy)]
pub struct Digits<'a>(&'a [u8]);

impl Buffer {
    /// Returns a buffer. Rattle's has no clause.
    #[inline]
    pub fn new() -> Buffer {
        Buffer { bytes: [0; MOST] }
    }

    /// Rattle's clause: `result ≡ decimal n`: its digits, without a `0` in front but for
    /// the number 0.
    #[inline]
    pub fn format(&mut self, n: impl Into<u64>) -> Digits<'_> {
        let mut left = n.into();
        let mut at = MOST;
        while left >= 100 {
            at -= 2;
            [self.bytes[at], self.bytes[at + 1]] = PAIRS[(left % 100) as usize];
            left /= 100;
        }
        if left >= 10 {
            at -= 2;
            [self.bytes[at], self.bytes[at + 1]] = PAIRS[left as usize];
        } else {
            at -= 1;
            self.bytes[at] = b'0' + left as u8;
        }
        Digits(&self.bytes[at..])
    }
}

impl<'a> Digits<'a> {
    #[inline(always)]
    pub fn as_bytes(self) -> &'a [u8] {
        self.0
    }
}
