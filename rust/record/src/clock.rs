//! What time it is, beside the stamps of calls, which say no more than their order.

use std::time::{Instant, SystemTime, UNIX_EPOCH};

/// Where the clock of a flight recorder begins. It is more than the leads of all channels can have
/// entries, and these have the stamps from 1 on. So a call has the same stamp in each dump.
pub const FLIGHT_START: u64 = 64 * 1_048_576;

pub const MILLISECONDS_OF_DAY: u64 = 86_400_000;

/// When a call was made.
#[derive(Clone, Copy, Debug, PartialEq, Eq)]
pub struct Moment {
    /// The stamp of the call.
    pub stamp: u64,
    /// Milliseconds since 1970, of a clock that may be set.
    pub wall: u64,
    /// Microseconds since the recorder was created, of a clock that only goes on.
    pub since_start: u64,
}

/// Returns when the call with this stamp was made, if there are times around it, which are in the
/// order of their stamps. Between two of them it is by the stamps.
pub fn moment_among(known: &[Moment], stamp: u64) -> Option<Moment> {
    let next = known.partition_point(|time| time.stamp < stamp);
    let after = known.get(next)?;
    let before = if after.stamp == stamp {
        after
    } else {
        known.get(next.checked_sub(1)?)?
    };
    let part = (stamp - before.stamp, after.stamp - before.stamp);
    Some(Moment {
        stamp,
        wall: between(before.wall, after.wall, part),
        since_start: between(before.since_start, after.since_start, part),
    })
}

/// Returns the number that is `part` of `whole` parts of the way from `from` to `to`.
fn between(from: u64, to: u64, (part, whole): (u64, u64)) -> u64 {
    if whole == 0 {
        return from;
    }
    let way = i128::from(to) - i128::from(from);
    let number = i128::from(from) + way * i128::from(part) / i128::from(whole);
    u64::try_from(number).unwrap_or(0)
}

/// Returns the time. WebAssembly without an operating system has no clock, and would panic.
#[inline]
pub fn now() -> Option<Instant> {
    if cfg!(all(target_family = "wasm", target_os = "unknown")) {
        None
    } else {
        Some(Instant::now())
    }
}

/// Returns the year, the month and the day that is `days` days after the first one of 1970.
pub fn date(days: u64) -> (u64, u64, u64) {
    // Days are counted from a first of March, so that a leap day is the last one of its year. There
    // are 146,097 days in 400 years.
    let days = days + 719_468;
    let (era, day) = (days / 146_097, days % 146_097);
    let year = (day - day / 1_460 + day / 36_524 - day / 146_096) / 365;
    let day = day - (365 * year + year / 4 - year / 100);
    let month = (5 * day + 2) / 153;
    let day = day - (153 * month + 2) / 5 + 1;
    let is_next = month >= 10;
    let month = if is_next { month - 9 } else { month + 3 };
    (400 * era + year + u64::from(is_next), month, day)
}

/// Returns a time of the wall clock in UTC, as `2026-11-29 03:12:45.120`.
pub fn utc(wall: u64) -> String {
    let (date, clock) = date_and_clock(wall);
    format!("{date} {clock}")
}

/// As `2026-11-29T03:12:45.120Z`.
pub fn iso(wall: u64) -> String {
    let (date, clock) = date_and_clock(wall);
    format!("{date}T{clock}Z")
}

/// Returns the date and the time of day in UTC at `wall` milliseconds since 1970.
pub fn date_and_clock(wall: u64) -> (String, String) {
    let (days, time) = (wall / MILLISECONDS_OF_DAY, wall % MILLISECONDS_OF_DAY);
    let (year, month, day) = date(days);
    let date = format!("{year:04}-{month:02}-{day:02}");
    let (seconds, rest) = (time / 1_000, time % 1_000);
    let (minutes, second) = (seconds / 60, seconds % 60);
    let clock = format!(
        "{:02}:{:02}:{second:02}.{rest:03}",
        minutes / 60,
        minutes % 60
    );
    (date, clock)
}

/// The clocks of a recorder.
#[derive(Clone, Copy, Debug)]
pub struct Times(Option<Instant>);

impl Times {
    /// The clocks of a recorder that is created now.
    pub fn begin() -> Times {
        Times(now())
    }

    /// Returns the time of a call with this stamp, which is made now, if there is a clock.
    pub fn moment(self, stamp: u64) -> Option<Moment> {
        Some(Moment {
            stamp,
            wall: wall()?,
            since_start: self.since_start()?,
        })
    }

    fn since_start(self) -> Option<u64> {
        let since_start = now()?.saturating_duration_since(self.0?);
        Some(since_start.as_micros() as u64)
    }
}

/// For how many microseconds the time of the clock that may be set is computed from its last
/// reading.
const COMPUTED_FOR: u64 = 1_000_000;

/// The clocks of a recorder, for calls that come one after the other. A receiver that falls behind
/// may lag at each call, so the clock that may be set is read once a second at most.
pub struct Clock {
    times: Times,
    // The last call at which the clock that may be set was read.
    read: Option<Moment>,
}

impl Clock {
    pub fn new(times: Times) -> Clock {
        Clock { times, read: None }
    }

    /// The clocks of the recorder.
    pub fn times(&self) -> Times {
        self.times
    }

    /// Returns the time of a call with this stamp, which was made at this instant, if there is a
    /// clock.
    pub fn moment_at(&self, stamp: u64, instant: Instant) -> Option<Moment> {
        let now = self.times.moment(stamp)?;
        let since_start = instant.saturating_duration_since(self.times.0?);
        let since_start = since_start.as_micros() as u64;
        // After the last reading it is computed as those of calls are, so that none is before them.
        let read = self.read.filter(|read| read.since_start <= since_start);
        let computed = read.and_then(|read| read.computed_wall(since_start));
        let ago = now.since_start.saturating_sub(since_start);
        Some(Moment {
            wall: computed.unwrap_or_else(|| now.wall.saturating_sub(ago.div_ceil(1000))),
            since_start,
            ..now
        })
    }

    /// Returns the time of a call with this stamp, which is made now, if there is a clock.
    pub fn moment(&mut self, stamp: u64) -> Option<Moment> {
        let since_start = self.times.since_start()?;
        if let Some(wall) = self.read.and_then(|read| read.computed_wall(since_start)) {
            return Some(Moment {
                stamp,
                wall,
                since_start,
            });
        }
        self.read = Some(Moment {
            stamp,
            wall: wall()?,
            since_start,
        });
        self.read
    }
}

impl Moment {
    /// Returns the milliseconds since 1970 at a later time, unless that is too much later.
    fn computed_wall(&self, since_start: u64) -> Option<u64> {
        let after = since_start - self.since_start;
        (after < COMPUTED_FOR).then(|| self.wall + after / 1000)
    }
}

/// Returns the milliseconds since 1970, if there is a clock. WebAssembly without an operating
/// system has none, and would panic.
pub fn wall() -> Option<u64> {
    if cfg!(all(target_family = "wasm", target_os = "unknown")) {
        return None;
    }
    let since = SystemTime::now().duration_since(UNIX_EPOCH).ok()?;
    Some(since.as_millis() as u64)
}

#[cfg(test)]
mod tests {
    use super::*;

    const READ: Moment = Moment {
        stamp: 1,
        wall: 5_000,
        since_start: 70,
    };

    #[test]
    fn a_time_is_computed_for_a_second() {
        let walls = [70, 1_069, 1_070, 1_000_069].map(|since| READ.computed_wall(since));
        assert_eq!(walls, [5_000, 5_000, 5_001, 5_999].map(Some));
        assert_eq!(READ.computed_wall(1_000_070), None);
    }

    #[test]
    fn the_clock_that_may_be_set_is_read_again_after_a_second() {
        let begun = Times::begin();
        let since_start = begun.since_start().unwrap();
        let mut clock = Clock::new(begun);
        clock.read = Some(Moment {
            since_start,
            ..READ
        });
        let soon = clock.moment(2).unwrap();
        let after = soon.since_start - since_start;
        assert_eq!(soon.stamp, 2);
        assert!(soon.wall == 5_000 + after / 1000 || after >= COMPUTED_FOR);
        // A second and more before now.
        clock.times = Times(Some(begun.0.unwrap() - std::time::Duration::from_secs(2)));
        let later = clock.moment(3).unwrap();
        assert!(later.wall > 1_700_000_000_000, "{later:?}");
        assert_eq!(clock.read, Some(later));
    }
}
