//! The search for a byte, as the crate `memchr` has it: eight bytes at a time.

/// The lowest bit of each byte of a word, and the highest.
const LOW: u64 = u64::from_ne_bytes([0x01; 8]);
const HIGH: u64 = u64::from_ne_bytes([0x80; 8]);

/// Rattle's clause: `IsFirstByte (is_byte byte) bytes result`: the first index at which `bytes` has
/// this byte, or `None` if there is none.
#[inline]
pub fn memchr(byte: u8, bytes: &[u8]) -> Option<usize> {
    let same = u64::from_ne_bytes([byte; 8]);
    let mut rest = bytes;
    // This pattern is one load of a word, and no call where code is unoptimized.
    while let [a, b, c, d, e, f, g, h, after @ ..] = rest {
        // A byte that is the wanted one is 0 here. The lowest 0 sets its highest bit in `zeros`,
        // and no byte below it does: it takes a borrow from a 0 below for another byte to set it.
        let differs = u64::from_le_bytes([*a, *b, *c, *d, *e, *f, *g, *h]) ^ same;
        let zeros = differs.wrapping_sub(LOW) & !differs & HIGH;
        if zeros != 0 {
            let at = zeros.trailing_zeros() as usize / 8;
            return Some(bytes.len() - rest.len() + at);
        }
        rest = after;
    }
    let at = rest.iter().position(|at| *at == byte)?;
    Some(bytes.len() - rest.len() + at)
}
