//! How long something took, as a test measures it and as a report says it.

use std::time::Instant;

/// The microseconds that the clocks of a test and of the crate may round off together.
const ROUNDED: u64 = 3;

/// The microseconds between which a time lies.
#[derive(Clone, Copy, Debug)]
pub struct Measured {
    pub least: u64,
    pub most: u64,
}

impl Measured {
    /// The time from what was done between the first two of these to what was done between the last
    /// two.
    pub fn between([before, begun, ending, after]: [Instant; 4]) -> Measured {
        Measured {
            least: (ending - begun).as_micros() as u64,
            most: (after - before).as_micros() as u64,
        }
    }

    /// Whether this number of microseconds was measured.
    pub fn is(&self, microseconds: u64) -> bool {
        self.least <= microseconds + ROUNDED && microseconds <= self.most + ROUNDED
    }

    /// Whether a text as `31 ms` is the time that was measured, rounded down.
    pub fn is_said(&self, text: &str) -> bool {
        let (number, unit) = text.split_once(' ').unwrap();
        let unit = match unit {
            "us" => 1,
            "ms" => 1_000,
            "s" => 1_000_000,
            _ => panic!("no unit of time: {text}"),
        };
        let from = number.parse::<u64>().unwrap() * unit;
        from <= self.most + ROUNDED && self.least < from + unit + ROUNDED
    }
}
