//! When calls were made, in words: by the clock of UTC, and how long before the dump.

use yovanelum_record::clock::{MILLISECONDS_OF_DAY, Moment, date_and_clock, iso, moment_among};
use yovanelum_record::sidecar::Sidecar;

/// The units of a duration with how many microseconds each has, and how many are said at most.
const UNITS: [(&str, u64, u64); 4] = [
    ("ms", 1_000, 1_000),
    ("s", 1_000_000, 120),
    ("min", 60_000_000, 120),
    ("h", 3_600_000_000, u64::MAX),
];

/// The times that a window knows.
pub(super) struct WindowTimes<'a> {
    // The last one is that of the dump.
    known: &'a [Moment],
}

/// When a call was made.
#[derive(Clone, Copy, Debug)]
pub struct CallTime {
    // In milliseconds since the epoch.
    wall: u64,
    // In microseconds.
    before_dump: u64,
    is_on_day_of_dump: bool,
}

impl<'a> WindowTimes<'a> {
    /// Without a window no times are told.
    pub(super) fn of(names: &'a Sidecar) -> WindowTimes<'a> {
        let known = if names.window.is_some() {
            &names.times[..]
        } else {
            &[]
        };
        WindowTimes { known }
    }

    /// Returns when the call with this stamp was made, if there are times around it. Between two of
    /// them it is by the stamps.
    pub(super) fn at(&self, stamp: u64) -> Option<CallTime> {
        // The dump may have the stamp of the last call, whose own time is before it.
        let made = moment_among(self.known, stamp)?;
        let dump = self.known.last()?;
        Some(CallTime {
            wall: made.wall,
            before_dump: dump.since_start.saturating_sub(made.since_start),
            is_on_day_of_dump: made.wall / MILLISECONDS_OF_DAY == dump.wall / MILLISECONDS_OF_DAY,
        })
    }
}

impl CallTime {
    /// As `at 03:12:45.120 UTC, 4 s before the dump`.
    pub(super) fn text(&self) -> String {
        let at = self.clock();
        match self.before_dump / 1_000 {
            0 => format!("{at}, at the dump"),
            _ => format!("{at}, {} before the dump", duration(self.before_dump)),
        }
    }

    /// As `at 03:12:45.120 UTC`. The date is there where it isn't the dump's.
    pub(super) fn clock(&self) -> String {
        let (date, clock) = date_and_clock(self.wall);
        if self.is_on_day_of_dump {
            format!("at {clock} UTC")
        } else {
            format!("at {date} {clock} UTC")
        }
    }

    /// How many microseconds later another call was made.
    pub(super) fn until(&self, later: &CallTime) -> u64 {
        self.before_dump.saturating_sub(later.before_dump)
    }

    /// As `2026-11-29T03:12:45.120Z`.
    pub(super) fn iso(&self) -> String {
        iso(self.wall)
    }
}

/// Returns a number of microseconds in one unit, rounded down.
fn duration(microseconds: u64) -> String {
    let mut units = UNITS.iter();
    let unit = units.find(|(_, of, most)| microseconds / of < *most);
    let (name, of, _) = unit.expect("the last unit has no limit");
    format!("{} {name}", microseconds / of)
}

#[cfg(test)]
mod tests {
    use super::*;
    use yovanelum_record::clock::utc;
    use yovanelum_record::sidecar::WindowNames;

    #[test]
    fn a_time_is_that_of_the_calendar() {
        // By `date -u -d @SECONDS`.
        for (wall, wanted) in [
            (0, "1970-01-01 00:00:00.000"),
            (951_782_400_000, "2000-02-29 00:00:00.000"),
            (1_709_251_199_999, "2024-02-29 23:59:59.999"),
            (1_709_251_200_000, "2024-03-01 00:00:00.000"),
            (1_795_921_965_120, "2026-11-29 03:12:45.120"),
            (1_798_761_599_000, "2026-12-31 23:59:59.000"),
            (4_107_542_400_000, "2100-03-01 00:00:00.000"),
        ] {
            assert_eq!(utc(wall), wanted);
        }
    }

    #[test]
    fn a_duration_has_one_unit() {
        for (microseconds, wanted) in [
            (1_999, "1 ms"),
            (999_999, "999 ms"),
            (4_000_000, "4 s"),
            (119_999_999, "119 s"),
            (120_000_000, "2 min"),
            (7_199_999_999, "119 min"),
            (7_200_000_000, "2 h"),
            (864_000_000_000, "240 h"),
        ] {
            assert_eq!(duration(microseconds), wanted);
        }
    }

    fn names(times: &[[u64; 3]]) -> Sidecar {
        let time = |[stamp, wall, since_start]: [u64; 3]| Moment {
            stamp,
            wall,
            since_start,
        };
        Sidecar {
            window: Some(WindowNames::default()),
            times: times.iter().copied().map(time).collect(),
            ..Sidecar::default()
        }
    }

    #[test]
    fn a_time_is_known_between_two_others() {
        // The wall clock is set back by a second between the second and the third.
        let names = names(&[
            [10, 1_795_921_961_120, 17_000_000],
            [20, 1_795_921_965_120, 21_000_000],
            [30, 1_795_921_964_120, 22_000_000],
            [30, 1_795_921_964_620, 22_500_000],
            [40, 1_795_921_965_120, 23_000_000],
        ]);
        let times = WindowTimes::of(&names);
        let text = |stamp| times.at(stamp).map(|time| time.text());
        let wanted = |text: &str| Some(text.to_string());
        assert_eq!((text(9), text(41)), (None, None));
        let first = "at 03:12:41.120 UTC, 6 s before the dump";
        assert_eq!(text(10), wanted(first));
        // 3 of 10 parts of 4 s.
        let between = "at 03:12:42.320 UTC, 4 s before the dump";
        assert_eq!(text(13), wanted(between));
        // Half of the way back.
        let back = "at 03:12:44.620 UTC, 1 s before the dump";
        assert_eq!(text(25), wanted(back));
        assert_eq!(text(30), wanted("at 03:12:44.120 UTC, 1 s before the dump"));
        assert_eq!(text(40), wanted("at 03:12:45.120 UTC, at the dump"));
        let iso = times.at(13).map(|time| time.iso());
        assert_eq!(iso, wanted("2026-11-29T03:12:42.320Z"));
    }

    #[test]
    fn another_day_is_said() {
        let names = names(&[
            [10, 1_795_910_399_000, 0],
            [20, 1_795_910_401_000, 2_000_000],
        ]);
        let times = WindowTimes::of(&names);
        let text = times.at(10).unwrap().text();
        assert_eq!(text, "at 2026-11-28 23:59:59.000 UTC, 2 s before the dump");
        let alone = Sidecar {
            window: None,
            ..names
        };
        assert!(WindowTimes::of(&alone).at(10).is_none());
    }
}
