//! How long calls take, and how much memory.

use std::fs;
use std::time::{Duration, Instant};

/// The bytes of a page. The system counts a process's memory in pages.
const PAGE: u64 = 4_096;

/// How long calls took, and by how many bytes of memory in use the process grew.
pub struct Cost {
    pub time: Duration,
    pub bytes: u64,
}

impl Cost {
    /// A cost whose bytes aren't measured.
    pub fn of(time: Duration) -> Cost {
        Cost { time, bytes: 0 }
    }
}

/// The time before the calls, and the memory in use.
pub struct Start {
    time: Instant,
    bytes: u64,
}

impl Start {
    /// Returns the time and the memory in use now.
    pub fn now() -> Start {
        let bytes = resident_bytes();
        Start {
            bytes,
            time: Instant::now(),
        }
    }

    /// Returns the cost since then.
    pub fn cost(&self) -> Cost {
        Cost {
            time: self.time.elapsed(),
            bytes: resident_bytes().saturating_sub(self.bytes),
        }
    }
}

/// Returns how many bytes of the process's memory are in use. A page that was never touched isn't.
fn resident_bytes() -> u64 {
    let counts = fs::read_to_string("/proc/self/statm").unwrap();
    let pages = counts.split(' ').nth(1).unwrap();
    pages.parse::<u64>().unwrap() * PAGE
}
