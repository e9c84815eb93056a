//! Hand-offs: opened, the book taken, called and given back, two seats that meet, and closed.

use crate::met::{made, refused, say};
use crate::passes::{open_book, readings_of};
use proved::Vec;
use proved::rw_broadcast::BCall;
use proved::rw_journal::{Book, TakeFault};
use proved::rw_law::NoMemory;
use proved::rw_seat::{HandOff, HandSeat};
use proved::rw_world::{Chan, ChanCall, ChanReply, Spec};
use proved::{Global, RT};

/// A book of a broadcast of numbers.
type Numbers = Book<Chan<u64>>;

/// Sends a value by actor 0. A fault leaves the entries as they were.
fn send_to(book: &mut Numbers, value: u64) -> Result<ChanReply<u64>, TakeFault> {
    let receipt = book.take(0, 0, ChanCall::B(BCall::Send(0, value)))?;
    Ok(receipt.reply)
}

/// A hand-off, and its seats.
type Opened = (HandOff<Numbers>, Vec<HandSeat<Numbers>>);

/// A book with two seats. Where memory is refused for the hand-off, the book is dropped.
fn open() -> Result<Opened, NoMemory> {
    HandOff::open(Global, open_book(&Spec::Broadcast(2))?, 2)
}

/// The same, with retries.
fn new_hand_off() -> Result<Opened, NoMemory> {
    made(open)
}

/// Sends a value, and asks for it again. At a refusal the book is as before.
fn ask(book: &mut Numbers, value: u64) -> Result<ChanReply<u64>, TakeFault> {
    let before = readings_of(book);
    match send_to(book, value) {
        Err(TakeFault::NoMemory) => {
            refused(readings_of(book) == before);
            send_to(book, value)
        }
        answer => answer,
    }
}

/// Sends a value by seat 0, between a taking and a giving back.
fn send(
    hand_off: &HandOff<Numbers>,
    seat: HandSeat<Numbers>,
    value: u64,
) -> (HandSeat<Numbers>, Result<ChanReply<u64>, TakeFault>) {
    let mut lent = hand_off.take(&RT, seat);
    let sent = ask(lent.book(), value);
    (lent.give(), sent)
}

/// Sends a value by seat 0, so often that the book has to grow, and returns the last reply.
fn send_all(
    hand_off: &HandOff<Numbers>,
    seat: HandSeat<Numbers>,
    value: u64,
) -> (HandSeat<Numbers>, Result<ChanReply<u64>, TakeFault>) {
    let (mut seat, mut last) = send(hand_off, seat, value);
    for _ in 1..40 {
        let (back, sent) = send(hand_off, seat, value);
        seat = back;
        last = sent;
    }
    (seat, last)
}

/// How long the book is that a seat takes.
fn look(hand_off: &HandOff<Numbers>, seat: HandSeat<Numbers>) -> (HandSeat<Numbers>, u64) {
    let mut lent = hand_off.take(&RT, seat);
    let length = lent.book().len();
    (lent.give(), length)
}

/// Closes a hand-off with these seats and one more. It allocates nothing.
fn close_with(
    hand_off: HandOff<Numbers>,
    mut seats: Vec<HandSeat<Numbers>>,
    seat: HandSeat<Numbers>,
) -> Result<u64, &'static str> {
    if seats.push(seat).is_err() {
        return Err("no room for the last seat");
    }
    let Ok(book) = hand_off.close(seats) else {
        return Err("a seat is missing");
    };
    Ok(book.len())
}

/// Lets two seats meet, and closes a hand-off without the second, which is refused, and then with it: how long its book is.
fn meet_and_close(
    hand_off: HandOff<Numbers>,
    mut seats: Vec<HandSeat<Numbers>>,
    zero: HandSeat<Numbers>,
    one: HandSeat<Numbers>,
) -> Result<u64, &'static str> {
    let (zero, one) = hand_off.meet(&RT, zero, one);
    if seats.push(zero).is_err() {
        return Err("no room for a seat");
    }
    let Err(back) = hand_off.close(seats) else {
        return Err("closed without a seat");
    };
    let (hand_off, seats) = back;
    close_with(hand_off, seats, one)
}

/// What seat 0 is answered at last, how long the book is that seat 1 takes then, and how long it is at the end.
type Sent = (Result<ChanReply<u64>, TakeFault>, u64, u64);

/// Sends a value by the first of two seats, lets the second look and both meet, and closes their hand-off.
fn sent(value: u64) -> Result<Sent, &'static str> {
    let Ok((hand_off, mut seats)) = new_hand_off() else {
        return Err("isn't opened");
    };
    let Some(one) = seats.pop() else {
        return Err("no seat 1");
    };
    let Some(zero) = seats.pop() else {
        return Err("no seat 0");
    };
    if zero.number() != 0 {
        return Err("the first seat isn't seat 0");
    }
    let (zero, last) = send_all(&hand_off, zero, value);
    let (one, length) = look(&hand_off, one);
    let at_end = meet_and_close(hand_off, seats, zero, one);
    Ok((last, length, at_end.unwrap()))
}

/// Plays a hand-off of two seats.
pub fn play() {
    say!("a hand-off");
    match sent(7) {
        Ok((last, length, at_end)) => say!(
            "  {last:?}, then {length} entries\n  not closed without a seat\n  closed with {at_end} entries"
        ),
        Err(fault) => say!("  {fault}"),
    }
}
