//! The clock of a replay. It stands still while the whole program does, as where a debugger holds
//! all threads.

use super::gate::BETWEEN_LOOKS;
use std::time::{Duration, Instant};

/// The program stood still if nobody has looked at the clock for so long. The helper looks far more
/// often while anyone waits.
const PAUSE: Duration = BETWEEN_LOOKS.checked_mul(4).unwrap();

/// What a pause counts. It isn't nothing, so that waits end also where each look comes late.
const COUNTED: Duration = BETWEEN_LOOKS.checked_div(16).unwrap();

/// A clock that counts how long the program runs.
pub(super) struct RunningClock {
    ran: Duration,
    looked_at: Instant,
}

/// A time of a clock.
#[derive(Clone, Copy, PartialEq, Eq, PartialOrd, Ord, Debug)]
pub(super) struct Time(Duration);

impl Time {
    /// Returns how long the program had run since an earlier time.
    pub(super) fn since(self, earlier: Time) -> Duration {
        self.0.saturating_sub(earlier.0)
    }
}

impl RunningClock {
    pub(super) fn new() -> RunningClock {
        RunningClock {
            ran: Duration::ZERO,
            looked_at: Instant::now(),
        }
    }

    pub(super) fn now(&mut self) -> Time {
        self.at(Instant::now())
    }

    /// Returns how long the program has run since a time.
    pub(super) fn since(&mut self, time: Time) -> Duration {
        self.now().since(time)
    }

    fn at(&mut self, now: Instant) -> Time {
        let passed = now.saturating_duration_since(self.looked_at);
        self.looked_at = now;
        self.ran += if passed < PAUSE { passed } else { COUNTED };
        Time(self.ran)
    }
}

#[cfg(test)]
mod tests {
    use super::*;

    #[test]
    fn the_clock_stands_still_where_nobody_has_looked_for_long() {
        let mut clock = RunningClock::new();
        let start = clock.looked_at;
        let (look, hour) = (BETWEEN_LOOKS, Duration::from_secs(3600));
        assert_eq!(clock.at(start + look), Time(look));
        assert_eq!(clock.at(start + 2 * look), Time(2 * look));
        assert_eq!(clock.at(start + 2 * look + hour), Time(2 * look + COUNTED));
        assert_eq!(clock.at(start + 3 * look + hour), Time(3 * look + COUNTED));
    }
}
