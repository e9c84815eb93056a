//! What is played with seats.

use super::rw_seat::{DeskSeat, HandOff, HandSeat, SeatDesk};
use crate::orders::{Play, call};
use crate::played::{RT, boxed};
use crate::shim::alloc::Global;
use crate::source::rw_broadcast::BCall;
use crate::source::rw_journal::{Book, MOST_ENTRIES};
use crate::source::rw_watch::WCall;
use crate::source::rw_world::{Chan, ChanCall, Spec, open_channel};
use crate::versions::right::rw_desk::DeskFault;
use std::sync::{Arc, Mutex};

/// A book of a broadcast of numbers.
type Numbers = Book<Chan<u64>>;

/// A hand-off, and the seats that are back.
struct Table {
    hand_off: HandOff<Numbers>,
    back: Mutex<Vec<HandSeat<Numbers>>>,
}

/// Opens a hand-off of an empty book, with this many seats.
fn open(seats: u32) -> (Arc<Table>, Vec<HandSeat<Numbers>>) {
    let channel = open_channel(Global, &Spec::Broadcast(2)).unwrap();
    let book = Book::open(Global, channel).unwrap();
    let (hand_off, seats) = HandOff::open(Global, book, seats).unwrap();
    let back = Mutex::new(Vec::new());
    (
        Arc::new(Table { hand_off, back }),
        seats.into_iter().collect(),
    )
}

/// Acquires the book, sends a value as the seat's actor, and releases the book.
fn send(table: &Table, seat: HandSeat<Numbers>, value: u64) -> HandSeat<Numbers> {
    let mut back = None;
    call(|| {
        let actor = seat.number();
        let mut lent = table.hand_off.take(&RT, seat);
        let sent = lent
            .book()
            .take(actor, 0, ChanCall::B(BCall::Send(0, value)));
        back = Some(lent.give());
        sent.unwrap().stamp
    });
    back.unwrap()
}

/// Sends the values 0, 1, ..
fn send_often(table: &Table, mut seat: HandSeat<Numbers>, times: u64) {
    for value in 0..times {
        seat = send(table, seat, value);
    }
    table.back.lock().unwrap().push(seat);
}

/// Closes the hand-off with all seats. Each actor has to have sent the values 0, 1, .. in order, and nothing else is there.
fn close(table: Arc<Table>, seats: u32, times: u64) {
    let Table { hand_off, back } = Arc::into_inner(table).unwrap();
    let back = back.into_inner().unwrap().into_iter().collect();
    let Ok(book) = hand_off.close(back) else {
        panic!("a seat is missing");
    };
    for actor in 0..seats {
        let own = book.entries().iter().filter(|entry| entry.actor == actor);
        let wanted = (0..times).map(|value| ChanCall::B(BCall::Send(0, value)));
        assert!(own.map(|entry| entry.call).eq(wanted));
    }
    assert_eq!(book.len(), u64::from(seats) * times);
}

/// Each of these seats sends so often, in a thread of its own.
pub fn sends(seats: u32, times: u64) -> Play {
    let (table, all) = open(seats);
    let of_seat = |seat| {
        let table = table.clone();
        boxed(move || send_often(&table, seat, times))
    };
    Play {
        threads: all.into_iter().map(of_seat).collect(),
        end: Box::new(move || close(table, seats, times)),
    }
}

pub fn two_send_twice() -> Play {
    sends(2, 2)
}

pub fn two_send() -> Play {
    sends(2, 1)
}

pub fn three_send() -> Play {
    sends(3, 1)
}

/// Two of three seats meet, while the third sends.
pub fn two_meet() -> Play {
    let (table, all) = open(3);
    let Ok([one, two, three]) = <[_; 3]>::try_from(all) else {
        panic!("three seats");
    };
    let (of_both, of_third) = (table.clone(), table.clone());
    let meet = move || {
        call(|| {
            let (one, two) = of_both.hand_off.meet(&RT, one, two);
            of_both.back.lock().unwrap().extend([one, two]);
            0
        });
    };
    let end = move || {
        let Table { hand_off, back } = Arc::into_inner(table).unwrap();
        let Ok(book) = hand_off.close(back.into_inner().unwrap().into_iter().collect()) else {
            panic!("a seat is missing");
        };
        assert_eq!(book.len(), 1);
    };
    Play {
        threads: vec![boxed(meet), boxed(move || send_often(&of_third, three, 1))],
        end: Box::new(end),
    }
}

/// A desk of one channel whose journal is full, and its one seat.
fn full() -> (SeatDesk<u64>, DeskSeat<u64>) {
    let (desk, mut seats) = SeatDesk::open(Global, &[Spec::Watch(0)], 1).unwrap();
    let mut seat = seats.pop().unwrap();
    for value in 0..MOST_ENTRIES {
        let (back, answer) = desk.call(&RT, seat, 0, a_call());
        assert!(answer.is_ok());
        seat = back;
    }
    (desk, seat)
}

fn a_call() -> ChanCall<u64> {
    ChanCall::W(WCall::Borrow(1))
}

/// A seat calls where the journal is full.
pub fn calls_when_full() -> Play {
    let (desk, seat) = full();
    let act = move || {
        call(|| {
            let (_, answer) = desk.call(&RT, seat, 0, a_call());
            assert_eq!(answer, Err(DeskFault::JournalFull));
            0
        });
    };
    Play {
        threads: vec![boxed(act)],
        end: Box::new(|| ()),
    }
}
