//! Seats and desks as they are: in no order a thread sleeps on or spins.

use waiting::orders::{Found, Play, Search};
use waiting::versions::right::{locks, seats};

/// A call makes at most this number of steps while no other thread changes anything.
const MOST_ALONE: u32 = 12;

/// All orders.
const ALL: Search = Search {
    preemptions: None,
    surprises: 0,
    most_alone: MOST_ALONE,
};

/// All orders, where a thread may wake without a reason.
const SURPRISED: Search = Search {
    surprises: 1,
    ..ALL
};

/// Those in which a thread is stopped at most three times.
const FEW: Search = Search {
    preemptions: Some(3),
    ..ALL
};

/// Nothing is found, in more orders than one.
fn finds_nothing(search: Search, play: fn() -> Play) {
    let found = search.of(play);
    let Found::Nothing { orders, .. } = found else {
        panic!("{found:?}");
    };
    assert!(orders > 10, "only {orders} orders");
}

#[test]
fn two_seats_send_twice() {
    finds_nothing(ALL, seats::two_send_twice);
}

#[test]
fn two_seats_that_may_wake_without_a_reason() {
    finds_nothing(SURPRISED, seats::two_send);
}

#[test]
fn three_seats_send() {
    finds_nothing(FEW, seats::three_send);
}

/// It takes as long as all the others.
#[test]
#[ignore = "tests/core/test slow runs it"]
fn three_seats_send_in_every_order() {
    finds_nothing(ALL, seats::three_send);
}

#[test]
fn two_seats_meet() {
    finds_nothing(ALL, seats::two_meet);
}

#[test]
fn a_thread_waits_for_a_value_and_for_the_end() {
    finds_nothing(ALL, locks::one_waits);
}

#[test]
fn a_thread_waits_that_may_wake_without_a_reason() {
    finds_nothing(SURPRISED, locks::one_waits_beside_a_refused_call);
}

#[test]
fn two_threads_wait_for_one_value() {
    finds_nothing(ALL, locks::two_wait);
}

#[test]
fn a_thread_waits_beside_two_that_call() {
    finds_nothing(ALL, locks::one_waits_beside_two);
}

/// A call where the journal is full acquires its channel once.
#[test]
fn calls_where_the_journal_is_full() {
    for play in [seats::calls_when_full, locks::calls_when_full] {
        let found = ALL.of(play);
        assert!(matches!(found, Found::Nothing { .. }), "{found:?}");
    }
}
