//! Each planted bug is found.

use waiting::bugs::BUGS;
use waiting::orders::{Found, Play, Search};
use waiting::versions as with;

/// What a bug does.
#[derive(Clone, Copy, Debug, PartialEq)]
enum Kind {
    /// A thread sleeps on.
    Sleeps,
    /// A thread goes on and on.
    Spins,
}

/// All orders. Without a bug no call makes more steps alone (`orders.rs`).
const ALL: Search = Search {
    preemptions: None,
    surprises: 0,
    most_alone: 12,
};

/// A bug, what it does, and what is played to find it.
struct Row(&'static str, Kind, fn() -> Play);

/// Makes a row of a bug, whose version has its name.
macro_rules! row {
    ($kind:ident: $bug:ident, $played:ident::$play:ident) => {
        Row(
            stringify!($bug),
            Kind::$kind,
            with::$bug::$played::$play as fn() -> Play,
        )
    };
}

/// All bugs, in their order.
static ROWS: [Row; 14] = [
    row!(Sleeps: a_seat_parks_while_the_book_is_free, seats::two_send),
    row!(Spins: a_seat_never_parks, seats::two_send),
    row!(Sleeps: a_seat_parks_uncounted, seats::two_send),
    row!(Sleeps: a_release_counts_before_it_frees, seats::two_send),
    row!(Sleeps: a_release_wakes_a_second_sleeper_alone, seats::two_send),
    row!(Sleeps: a_release_wakes_nobody_where_two_sleep, seats::three_send),
    row!(Spins: a_seat_tries_a_full_journal_eleven_times, seats::calls_when_full),
    row!(Sleeps: a_looker_isnt_told, locks::one_waits),
    row!(Sleeps: a_sleeper_isnt_noted, locks::one_waits),
    row!(Sleeps: a_change_after_the_looks_is_missed, locks::one_waits),
    row!(Spins: a_waiting_call_never_sleeps, locks::one_waits),
    row!(Sleeps: a_change_that_is_told_to_lookers_wakes_nobody, locks::one_waits),
    row!(Sleeps: a_change_wakes_one_of_two_that_sleep, locks::two_wait),
    row!(Spins: a_desk_tries_a_full_journal_eleven_times, locks::calls_when_full),
];

fn kind(found: &Found) -> Option<Kind> {
    match found {
        Found::Asleep(_) => Some(Kind::Sleeps),
        Found::Spins(_) => Some(Kind::Spins),
        Found::Nothing { .. } | Found::Panics(_) => None,
    }
}

#[test]
fn each_bug_is_found() {
    let named = ROWS.iter().map(|row| row.0);
    assert!(named.eq(BUGS.iter().map(|bug| bug.name)));
    for Row(bug, wanted, play) in &ROWS {
        let found = ALL.of(play);
        assert_eq!(kind(&found), Some(*wanted), "{bug}: {found:?}");
    }
}
