//! A seat that waits for the book while another seat has it.

use super::hand_offs::{Numbers, close_with, look, open_two, send_to};
use crate::flags::is_set_in_time;
use proved::RT;
use proved::rw_seat::{HandOff, HandSeat};
use std::sync::atomic::{AtomicBool, Ordering};
use std::thread::yield_now;
use support::side_by_side;

/// How often a thread yields while it has the book, so that the thread that asks for it parks. A seat looks 64 times before that.
const YIELDS: u64 = 100_000;

/// What two threads tell each other: that one has the book, and that the other asks for it.
struct Turn {
    held: AtomicBool,
    asked: AtomicBool,
}

/// Acquires the book with seat 0. Once the other thread has asked for it, sends a value and releases the book. Says whether it was
/// asked for.
fn send_once_asked(
    hand_off: &HandOff<Numbers>,
    seat: HandSeat<Numbers>,
    value: u64,
    turn: &Turn,
) -> (HandSeat<Numbers>, bool) {
    let mut lent = hand_off.take(&RT, seat);
    turn.held.store(true, Ordering::SeqCst);
    let in_time = is_set_in_time(&turn.asked);
    for _ in 0..YIELDS {
        yield_now();
    }
    let sent = send_to(lent.book(), value);
    (lent.give(), in_time && sent.is_ok())
}

/// Asks for the book once the other thread has it, and reads its length and the actor of its last entry.
fn look_once_held(
    hand_off: &HandOff<Numbers>,
    seat: HandSeat<Numbers>,
    turn: &Turn,
) -> (HandSeat<Numbers>, (u64, Option<u32>)) {
    let _ = is_set_in_time(&turn.held);
    turn.asked.store(true, Ordering::SeqCst);
    look(hand_off, seat)
}

/// Does both, each in its own thread.
fn beside(
    hand_off: &HandOff<Numbers>,
    zero: HandSeat<Numbers>,
    one: HandSeat<Numbers>,
    value: u64,
) -> (
    (HandSeat<Numbers>, bool),
    (HandSeat<Numbers>, (u64, Option<u32>)),
) {
    let turn = Turn {
        held: AtomicBool::new(false),
        asked: AtomicBool::new(false),
    };
    let told = &turn;
    side_by_side(
        || send_once_asked(hand_off, zero, value, told),
        || look_once_held(hand_off, one, told),
    )
}

/// Whether the book was asked for while seat 0 had it; what seat 1 then read; and the length of the book at the close.
type Waited = (bool, (u64, Option<u32>), u64);

/// Lets seat 1 of a hand-off wait for the book while seat 0 has it.
fn waited(value: u64) -> Waited {
    let (hand_off, zero, one) = open_two();
    let ((zero, asked), (one, shown)) = beside(&hand_off, zero, one, value);
    let book = close_with(hand_off, [zero, one]);
    (asked, shown, book.len())
}

#[test]
fn a_seat_waits_for_the_book() {
    let waited = waited(4);
    assert_eq!(waited, (true, (1, Some(0)), 1));
}
