//! Casts of numbers that nothing bounds.

/// Returns a number as an index, or the greatest index where it doesn't fit, which is past every
/// list.
///
/// Rattle's `as usize` keeps each `u64`, since its `usize` has 64 bits. Here it is so on 64-bit
/// targets. On others a number that doesn't fit would become a smaller one, which may be the index
/// of an item.
#[inline(always)]
pub fn saturated(number: u64) -> usize {
    usize::try_from(number).unwrap_or(usize::MAX)
}
