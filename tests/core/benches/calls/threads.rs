//! What is timed in two threads.

use crate::desks::{make_all, make_by_seat};
use proved::rw_broadcast::{BCall, BReply};
use proved::rw_desk::{Desk, Pass};
use proved::rw_seat::SeatDesk;
use proved::rw_world::{ChanCall, ChanReply, Spec};
use proved::{Global, RT};
use std::sync::atomic::AtomicU64;
use std::sync::atomic::Ordering::SeqCst;
use std::thread;
use std::time::{Duration, Instant};
use support::side_by_side;

/// How many values may be unread before their sender waits. The channel keeps 1,024, so no receiver lags.
const MOST_UNREAD: u64 = 1_000;

/// How long two threads take to make the calls, each on its own broadcast of a desk.
pub fn apart_on_desk(calls: &[ChanCall<u64>]) -> Duration {
    let (desk, mut passes, _ends) = Desk::open(Global, &[Spec::Broadcast(1_024); 2], 2).unwrap();
    let [first, second] = passes.as_mut_slice() else {
        unreachable!()
    };
    let begin = Instant::now();
    side_by_side(
        || make_all(&desk, second, 1, calls),
        || make_all(&desk, first, 0, calls),
    );
    begin.elapsed()
}

/// The same by two seats.
pub fn apart_on_seats(calls: &[ChanCall<u64>]) -> Duration {
    let (desk, mut seats) = SeatDesk::open(Global, &[Spec::Broadcast(1_024); 2], 2).unwrap();
    let (second, first) = (seats.pop().unwrap(), seats.pop().unwrap());
    let begin = Instant::now();
    side_by_side(
        || make_by_seat(&desk, second, 1, calls),
        || make_by_seat(&desk, first, 0, calls),
    );
    begin.elapsed()
}

/// Sends this many values, and drops the sender.
fn send_all(desk: &Desk<u64>, pass: &mut Pass<u64>, read: &AtomicU64, count: u64) {
    for i in 0..count {
        while i.saturating_sub(read.load(SeqCst)) >= MOST_UNREAD {
            thread::yield_now();
        }
        desk.wait_call(&RT, pass, 0, ChanCall::B(BCall::Send(0, i)))
            .unwrap();
    }
    desk.wait_call(&RT, pass, 0, ChanCall::B(BCall::DropHandle(0)))
        .unwrap();
}

/// Receives until the channel is closed, and counts what it has read.
fn receive_all(desk: &Desk<u64>, pass: &mut Pass<u64>, read: &AtomicU64) -> u64 {
    loop {
        match desk
            .wait_call(&RT, pass, 0, ChanCall::B(BCall::Recv(1)))
            .unwrap()
        {
            ChanReply::B(BReply::Closed) => return read.load(SeqCst),
            _ => read.fetch_add(1, SeqCst),
        };
    }
}

/// How long it takes to send this many values in one thread and to receive all of them in another.
pub fn beside(count: u64) -> Duration {
    let (desk, mut passes, _ends) = Desk::open(Global, &[Spec::Broadcast(1_024)], 2).unwrap();
    let [first, second] = passes.as_mut_slice() else {
        unreachable!()
    };
    let read = AtomicU64::new(0);
    let begin = Instant::now();
    let ((), received) = side_by_side(
        || send_all(&desk, second, &read, count),
        || receive_all(&desk, first, &read),
    );
    let time = begin.elapsed();
    assert_eq!(received, count);
    time
}
