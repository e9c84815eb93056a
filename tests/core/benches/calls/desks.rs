//! What is timed in one thread: calls in a book, at a desk and by a seat, and the close of a desk.

use crate::resident::{Cost, Start};
use proved::rw_desk::{Desk, Pass};
use proved::rw_journal::Book;
use proved::rw_seat::{DeskSeat, SeatDesk};
use proved::rw_world::{ChanCall, Spec, open_channel};
use proved::shim::sync::Mutex;
use proved::{Global, RT};
use std::time::{Duration, Instant};

/// Makes the calls on a channel of a desk.
pub fn make_all(desk: &Desk<u64>, pass: &mut Pass<u64>, channel: u32, calls: &[ChanCall<u64>]) {
    for call in calls {
        desk.wait_call(&RT, pass, channel, *call).unwrap();
    }
}

/// Makes the calls on a channel by a seat.
pub fn make_by_seat(
    desk: &SeatDesk<u64>,
    mut seat: DeskSeat<u64>,
    channel: u32,
    calls: &[ChanCall<u64>],
) {
    for call in calls {
        let (back, answer) = desk.call(&RT, seat, channel, *call);
        seat = back;
        answer.unwrap();
    }
}

/// The cost of recording the calls in a book of a channel.
pub fn in_book(spec: &Spec<u64>, calls: &[ChanCall<u64>]) -> Cost {
    let channel = open_channel(Global, spec).unwrap();
    let mut book = Book::open(Global, channel).unwrap();
    let start = Start::now();
    for call in calls {
        book.take(0, 0, *call).unwrap();
    }
    start.cost()
}

/// The cost of making the calls on a desk of one channel.
pub fn on_desk(spec: Spec<u64>, calls: &[ChanCall<u64>]) -> Cost {
    let (desk, mut passes, _ends) = Desk::open(Global, &[spec], 1).unwrap();
    let start = Start::now();
    make_all(&desk, &mut passes[0], 0, calls);
    start.cost()
}

/// The cost of making the calls by the only seat of a desk of one channel.
pub fn on_seat(spec: Spec<u64>, calls: &[ChanCall<u64>]) -> Cost {
    let (desk, mut seats) = SeatDesk::open(Global, &[spec], 1).unwrap();
    let seat = seats.pop().unwrap();
    let start = Start::now();
    make_by_seat(&desk, seat, 0, calls);
    start.cost()
}

/// How long a desk's lock takes alone, which tries before it waits.
pub fn on_lock(times: u64) -> Duration {
    let lock = Mutex::new(0);
    let begin = Instant::now();
    for _ in 0..times {
        *lock.try_lock().unwrap() += 1;
    }
    begin.elapsed()
}

/// How long a desk of 8 channels takes to close, after each of its actors has made the calls on its own channel.
pub fn to_close(calls: &[ChanCall<u64>]) -> Duration {
    let (desk, mut passes, _ends) = Desk::open(Global, &[Spec::Broadcast(1_024); 8], 8).unwrap();
    for (channel, pass) in (0..).zip(passes.iter_mut()) {
        make_all(&desk, pass, channel, calls);
    }
    let begin = Instant::now();
    let run = desk.close(Global, passes);
    let time = begin.elapsed();
    assert!(run.is_ok_and(|run| run.len() == 8 * calls.len() as u64));
    time
}
