//! Digits that a number has to have.

use std::str;

/// Digits that a number has to have: at its start, at its end, as all of it, or anywhere.
pub(super) struct Digits {
    /// The digits as a number.
    value: u64,
    /// The least number that has as many digits.
    least: u64,
    /// Ten to the power of how many digits there are, or 0 where that is past all numbers.
    scale: u64,
    is_start: bool,
    is_end: bool,
}

impl Digits {
    /// Returns `None` for digits that no number has.
    pub(super) fn of(digits: &[u8], is_start: bool, is_end: bool) -> Option<Digits> {
        let count = u32::try_from(digits.len()).ok()?;
        Some(Digits {
            value: str::from_utf8(digits).ok()?.parse().ok()?,
            least: if count == 1 {
                0
            } else {
                10u64.checked_pow(count - 1)?
            },
            scale: 10u64.checked_pow(count).unwrap_or(0),
            is_start,
            is_end,
        })
    }

    /// Whether a number has them. It is taken without its last digits, as far as they may follow.
    pub(super) fn are_in(&self, mut number: u64) -> bool {
        while number >= self.least {
            let is_all = self.scale == 0 || number < self.scale;
            if (is_all || !self.is_start) && self.last_of(number) == self.value {
                return true;
            }
            if self.is_end || is_all {
                return false;
            }
            number /= 10;
        }
        false
    }

    /// The last digits of a number, as many as these are.
    fn last_of(&self, number: u64) -> u64 {
        number.checked_rem(self.scale).unwrap_or(number)
    }
}
