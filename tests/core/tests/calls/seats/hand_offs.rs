//! Hand-offs of a book, without a desk.

use proved::rw_broadcast::{BCall, BReply};
use proved::rw_journal::{Book, TakeFault};
use proved::rw_seat::{HandOff, HandSeat};
use proved::rw_world::{Chan, ChanCall, ChanReply, Spec, open_channel};
use proved::{Global, RT};

/// A book of a broadcast of numbers.
pub type Numbers = Book<Chan<u64>>;

/// Opens a book without entries.
fn new_book() -> Numbers {
    let channel = open_channel(Global, &Spec::Broadcast(2)).unwrap();
    Book::open(Global, channel).unwrap()
}

/// Sends a value by actor 0.
pub fn send_to(book: &mut Numbers, value: u64) -> Result<ChanReply<u64>, TakeFault> {
    let receipt = book.take(0, 0, ChanCall::B(BCall::Send(0, value)))?;
    Ok(receipt.reply)
}

/// The actor of a book's last entry.
fn last_actor(book: &Numbers) -> Option<u32> {
    book.entries().last().map(|entry| entry.actor)
}

/// Opens a hand-off of a book, with this many seats.
pub fn open(seats: u32) -> (HandOff<Numbers>, Vec<HandSeat<Numbers>>) {
    let (hand_off, seats) = HandOff::open(Global, new_book(), seats).unwrap();
    (hand_off, seats.into_iter().collect())
}

/// Pops the last of a hand-off's seats, which has to be seat 0.
fn seat_zero(seats: &mut Vec<HandSeat<Numbers>>) -> HandSeat<Numbers> {
    let seat = seats.pop().unwrap();
    assert_eq!(seat.number(), 0);
    seat
}

/// Opens a hand-off of a book with two seats, and returns seat 0 before seat 1.
pub fn open_two() -> (HandOff<Numbers>, HandSeat<Numbers>, HandSeat<Numbers>) {
    let (hand_off, mut seats) = open(2);
    let one = seats.pop().unwrap();
    (hand_off, seat_zero(&mut seats), one)
}

/// Acquires the book with seat 0, sends a value, and releases the book.
fn send(
    hand_off: &HandOff<Numbers>,
    seat: HandSeat<Numbers>,
    value: u64,
) -> (HandSeat<Numbers>, Result<ChanReply<u64>, TakeFault>) {
    let mut lent = hand_off.take(&RT, seat);
    let sent = send_to(lent.book(), value);
    (lent.give(), sent)
}

/// Acquires the book with a seat, reads its length and the actor of its last entry, and releases it.
pub fn look(
    hand_off: &HandOff<Numbers>,
    seat: HandSeat<Numbers>,
) -> (HandSeat<Numbers>, (u64, Option<u32>)) {
    let mut lent = hand_off.take(&RT, seat);
    let book = lent.book();
    let shown = (book.len(), last_actor(book));
    (lent.give(), shown)
}

/// Reads the book by each seat, from the last to the first. Returns the seats, and how many have read this length and this actor.
fn look_each(
    hand_off: &HandOff<Numbers>,
    seats: Vec<HandSeat<Numbers>>,
    wanted: (u64, Option<u32>),
) -> (Vec<HandSeat<Numbers>>, usize) {
    let looked = seats.into_iter().rev().map(|seat| look(hand_off, seat));
    let (seats, shown): (Vec<_>, Vec<_>) = looked.unzip();
    (
        seats,
        shown.iter().filter(|shown| **shown == wanted).count(),
    )
}

/// Closes a hand-off with these seats.
pub fn close_with(
    hand_off: HandOff<Numbers>,
    seats: impl IntoIterator<Item = HandSeat<Numbers>>,
) -> Numbers {
    let Ok(book) = hand_off.close(seats.into_iter().collect()) else {
        panic!("not closed");
    };
    book
}

/// Lets two seats meet, and closes a hand-off: first without the second seat, which is refused, and then with it.
fn meet_and_close(
    hand_off: HandOff<Numbers>,
    one: HandSeat<Numbers>,
    two: HandSeat<Numbers>,
) -> Numbers {
    let (one, two) = hand_off.meet(&RT, one, two);
    let Err((hand_off, seats)) = hand_off.close([one].into_iter().collect()) else {
        panic!("closed without a seat");
    };
    close_with(hand_off, seats.into_iter().chain([two]))
}

/// Returns what a hand-off's one seat reads, and the length of the book at the close.
fn looked() -> ((u64, Option<u32>), u64) {
    let (hand_off, mut seats) = open(1);
    let seat = seat_zero(&mut seats);
    let (seat, shown) = look(&hand_off, seat);
    let book = close_with(hand_off, seats.into_iter().chain([seat]));
    (shown, book.len())
}

#[test]
fn hand_off_of_one() {
    let looked = looked();
    assert_eq!(looked, ((0, None), 0));
}

/// What the send by seat 0 returns, what seat 1 then reads, and the length of the book at the close.
type Sent<V> = (Result<ChanReply<V>, TakeFault>, (u64, Option<u32>), u64);

/// Sends a value by the first of two seats, and then reads the book by the second.
fn sent(value: u64) -> Sent<u64> {
    let (hand_off, zero, one) = open_two();
    let (zero, sent) = send(&hand_off, zero, value);
    let (one, shown) = look(&hand_off, one);
    let book = meet_and_close(hand_off, zero, one);
    (sent, shown, book.len())
}

#[test]
fn second_seat_finds_the_entry() {
    let sent = sent(4);
    assert_eq!(sent, (Ok(ChanReply::B(BReply::Sent(1))), (1, Some(0)), 1));
}

/// Reads the book of a hand-off by each of 64 seats, sends a value by seat 0, and reads it by all others. Returns how many have
/// read a book without entries, how many one with the entry, and the length of the book at the close.
fn read_by_all(value: u64) -> (usize, usize, u64) {
    let (hand_off, seats) = open(64);
    let (mut seats, before) = look_each(&hand_off, seats, (0, None));
    let zero = seat_zero(&mut seats);
    let (zero, _) = send(&hand_off, zero, value);
    let (seats, after) = look_each(&hand_off, seats, (1, Some(0)));
    let book = close_with(hand_off, seats.into_iter().chain([zero]));
    (before, after, book.len())
}

#[test]
fn hand_off_of_64() {
    let read = read_by_all(4);
    assert_eq!(read, (64, 63, 1));
}
