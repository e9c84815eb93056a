//! Each public function that has a limit, once at it and once one below, where it does all that is asked; and once above, where it says that
//! this is too much. A function without a limit of its own is at the greatest that it can be given.
//!
//! What takes long at its limit is run there where that is asked for, and else at a part of it. Each function is also tried at numbers below its
//! limit that are round, or beside such a one, and at twice these: a body that gives up at one of them fails.
//!
//! `covered` says for each function that compares something with a limit which row it is, so that none is without one.
//!
//! No contract can refuse a body that gives up for lack of memory above some size. Here memory is there, so such a body fails. How many
//! bytes the program reads at most is among its runs (`tests/program`).
#![cfg(test)]

mod channels;
mod covered;
mod desks;
mod found;
mod recorded;
mod texts;

use std::fs;

/// A function, its limit, and how long it may take there.
struct Limit {
    function: &'static str,
    /// The least size at which the row has what it looks at.
    least: u64,
    most: u64,
    /// How many seconds of a processor one run takes at most where others run beside it.
    seconds: u64,
    /// Does as much as this, and returns whether that isn't too much.
    takes: fn(u64) -> bool,
    /// Whether more can be asked for.
    has_more: bool,
}

/// How many times as long a run may take. A processor that does the work of other machines too has taken twice as long, and a body that is quadratic takes
/// a hundred times as long.
const BUSY: u64 = 4;

/// The time that this thread has run on a processor, in nanoseconds.
fn spent() -> u64 {
    let text = fs::read_to_string("/proc/thread-self/schedstat").unwrap();
    let first = text.split(' ').next().unwrap();
    first.parse().unwrap()
}

/// How often a function is tried at most that takes too long. What slows down one run seldom slows down all of them, and a body that is quadratic takes too
/// long each time.
const TIMES: u64 = 3;

/// How many seconds a function takes at this size: the least of some runs, unless the first is short enough.
fn takes_seconds(limit: &Limit, size: u64) -> u64 {
    let mut least = u64::MAX;
    for _ in 0..TIMES {
        let before = spent();
        assert!((limit.takes)(size), "{} refuses {size}", limit.function);
        least = least.min((spent() - before) / 1_000_000_000);
        if least < BUSY * limit.seconds {
            break;
        }
    }
    least
}

/// Tries a function at its limit, one below and one above.
fn holds(limit: &Limit) {
    for size in [limit.most - 1, limit.most] {
        let seconds = takes_seconds(limit, size);
        assert!(
            seconds < BUSY * limit.seconds,
            "{} takes {seconds} s",
            limit.function
        );
    }
    if limit.has_more {
        let more = limit.most + 1;
        assert!(!(limit.takes)(more), "{} takes {more}", limit.function);
    }
}

/// What takes long at its limit is tried at the limit divided by this.
const PART: u64 = 8;

/// Tries a function at a part of its limit.
fn takes_part(limit: &Limit) {
    let size = limit.most / PART;
    assert!((limit.takes)(size), "{} refuses {size}", limit.function);
}

/// Numbers that are round to programmers or to people, or beside such a one.
const ROUND: [u64; 9] = [1, 2, 63, 64, 65, 100, 101, 1_000, 65_536];

/// Tries a function at round sizes up to its limit, and at twice as much.
fn takes_round(limit: &Limit) {
    let sizes = ROUND.into_iter().flat_map(|size| [size, 2 * size]);
    for size in sizes.filter(|size| (limit.least..=limit.most).contains(size)) {
        assert!((limit.takes)(size), "{} refuses {size}", limit.function);
    }
}

/// The table. After `to` more is refused, and after `of` no more can be asked for. After `from` is the least size that a row has. Rows that are `slow` run where they are asked for.
macro_rules! limits {
    ($($function:literal $word:ident $most:literal $(from $least:literal)?, $seconds:literal s $($slow:ident)?: $part:ident::$name:ident;)+) => {
        /// The names of the rows.
        const ROWS: &[&str] = &[$($function),+];

        $(
            mod $name {
                fn limit() -> super::Limit {
                    super::Limit {
                        function: $function,
                        least: [1 $(, $least)?].into_iter().max().unwrap(),
                        most: $most,
                        seconds: $seconds,
                        takes: super::$part::$name,
                        has_more: stringify!($word) == "to",
                    }
                }

                #[test]
                $(#[ignore = "tests/core/test slow runs it"] #[doc = stringify!($slow)])?
                fn at_its_limit() {
                    super::holds(&limit());
                }

                #[test]
                fn at_round_sizes() {
                    super::takes_round(&limit());
                }

                $(
                    #[test]
                    #[doc = stringify!($slow)]
                    fn at_a_part_of_its_limit() {
                        super::takes_part(&limit());
                    }
                )?
            }
        )+
    };
}

limits! {
    "open_channel, capacity" to 65_536, 2 s: channels::capacity;
    "Broadcast, values of one receiver" of 65_536, 2 s: channels::unread;
    "Broadcast, handles" to 65_536 from 3, 2 s: channels::broadcast_handles;
    "Watch, handles" to 65_536 from 3, 2 s: channels::watch_handles;
    "open, channels" to 64, 2 s: channels::worlds;
    "Book::take" to 1_048_576, 2 s slow: recorded::book;
    "Ledger::take, entries_of" to 1_048_576, 4 s slow: recorded::ledger;
    "Book::take, stamps" to 4_611_686_018_427_387_904, 2 s: recorded::stamps;
    "RecentCalls::take, stamps" to 2_305_843_009_213_693_952, 2 s: recorded::recent_stamps;
    "RecentCalls::open, a chunk" of 524_288 from 2, 4 s slow: recorded::recent_chunk;
    "RunDraft::push, actors" to 64, 2 s: recorded::draft_actors;
    "RunDraft::push, stamps" to 4_611_686_018_427_387_904, 2 s: recorded::draft_stamps;
    "RunDraft::push" to 1_048_576, 2 s slow: recorded::draft;
    "merge_all" of 1_048_576, 4 s slow: recorded::merged;
    "merge_all, refusal_to_merge, channels" of 64, 2 s: recorded::merged_channels;
    "merge_calls" of 1_048_576, 2 s slow: recorded::merged_calls;
    "Recording::call" to 1_048_576, 2 s slow: recorded::recording;
    "Recording::call, after its end" of 2_097_152, 2 s slow: recorded::unrecorded;
    "Lead::play" to 1_048_576 from 1_026, 8 s slow: recorded::window;
    "Flight::of, stamps" to 2_305_843_009_213_693_952, 2 s: recorded::flight_stamps;
    "Lead::play, stamps" to 4_611_686_018_427_387_904 from 2_305_843_009_213_693_953, 2 s: recorded::window_stamps;
    "Kept::lead, handles" to 65_534 from 2, 2 s: recorded::window_handles;
    "Kept::lead, handles of the window" to 65_535 from 5, 2 s: recorded::window_creates;
    "Kept::lead, sends" to 1_048_576 from 2, 4 s slow: recorded::lead_sends;
    "Cut::add" to 64, 2 s: recorded::cut_channels;
    "Cut::run, RunReader::read" of 1_048_576, 8 s slow: recorded::cut_calls;
    "Desk::open, actors" to 64, 2 s: desks::actors;
    "Desk::call, Desk::close" to 1_048_576, 4 s slow: desks::calls;
    "Desk::call, a ring" of 65_536, 2 s: desks::ring;
    "SeatDesk::open, actors" to 64, 2 s: desks::seats;
    "SeatDesk::call, SeatDesk::close" to 1_048_576, 6 s slow: desks::seat_calls;
    "SeatDesk::call, a ring" of 65_536, 2 s: desks::seat_ring;
    "HandOff::open" of 64, 2 s: desks::hand_off;
    "Script::read, a line" to 256, 2 s: texts::line;
    "Script::read, channels" to 64, 2 s: texts::script_channels;
    "Script::read, a capacity" to 65_536, 2 s: texts::script_capacity;
    "Script::read, actors" to 64, 2 s: texts::script_actors;
    "Script::read, a name" to 16, 2 s: texts::script_name;
    "Script::read, run_one" to 1_048_576, 4 s slow: texts::steps;
    "read, write, salvage" to 1_048_576, 12 s slow: texts::journal;
    "read, channels" to 64, 2 s: texts::journal_channels;
    "read, a capacity" to 65_536, 2 s: texts::journal_capacity;
    "read, a line" to 256, 2 s: texts::journal_line;
    "read, actors" to 64, 2 s: texts::journal_actors;
    "read, stamps" to 4_611_686_018_427_387_904, 2 s: texts::journal_stamps;
    "session, a line" to 256, 2 s: texts::session_line;
    "session, bytes" to 268_435_456, 12 s slow: texts::session_bytes;
    "debug, bytes" to 268_435_456, 12 s slow: texts::debug_bytes;
    "debug, searches" of 4_000, 3 s: texts::debug_searches;
    "debug, indexes" of 257, 2 s: texts::debug_indexes;
    "read_whole" to 268_435_456, 4 s slow: texts::bytes;
    "losses_of, losses" of 524_287, 2 s slow: found::losses;
    "starts_of, losses" of 524_287, 4 s slow: found::starts;
    "closings_of, late readers" of 65_534, 2 s: found::late_readers;
    "totals_of, receivers" of 65_534, 2 s: found::totals;
    "last_receipts_of, receivers" of 65_534, 2 s: found::receipts;
    "lives_of, handles" of 65_534, 2 s: found::lives;
    "values_of, values_between, values" of 1_048_576, 4 s slow: found::values;
    "traffic_of, values" of 1_048_576, 4 s slow: found::traffic;
    "peaks_of, stretches" of 1_048_576, 4 s slow: found::peaks;
    "Findings::read" of 1_048_576 from 3, 8 s slow: found::findings;
    "HitIndex::build" of 1_048_576, 3 s slow: found::hits;
}
