//! Desks, with locks and with seats.

use crate::recorded::{SENT, send};
use proved::rw_broadcast::{BCall, BReply};
use proved::rw_desk::{Desk, DeskFault, DeskOpenFault, Pass};
use proved::rw_journal::{Book, Run};
use proved::rw_seat::{DeskSeat, HandOff, SeatDesk};
use proved::rw_world::{ChanCall, ChanReply, Spec};
use proved::{Global, RT};

/// As many channels as there may be.
const SPECS: [Spec<u64>; 64] = [Spec::Broadcast(2); 64];

const COUNT: ChanCall<u64> = ChanCall::B(BCall::ReceiverCount(0));

/// Whether each of `actors` actors has sent one value, on the last channel.
fn has_each(run: &Run<u64>, actors: u64) -> bool {
    let calls = run
        .entries()
        .iter()
        .map(|entry| (u64::from(entry.actor), entry.call.channel));
    calls.eq((0..actors).map(|actor| (actor, 63)))
}

pub fn actors(size: u64) -> bool {
    let opened = Desk::open(Global, &SPECS, size as u32);
    let (desk, mut passes, _) = match opened {
        Ok(opened) => opened,
        Err(fault) => {
            assert_eq!(fault, DeskOpenFault::BadActors);
            return false;
        }
    };
    for pass in passes.as_mut_slice() {
        assert_eq!(desk.call(&RT, pass, 63, send(1)), Ok(SENT));
    }
    has_each(&desk.close(Global, passes).ok().unwrap(), size)
}

pub fn calls(size: u64) -> bool {
    let (desk, mut passes, _) = Desk::open(Global, &SPECS[..2], 1).unwrap();
    let pass: &mut Pass<u64> = &mut passes[0];
    for value in 1..size {
        assert_eq!(desk.call(&RT, pass, 0, send(value)), Ok(SENT));
    }
    let last = desk.call(&RT, pass, 0, send(size));
    if last != Ok(SENT) {
        assert_eq!(last, Err(DeskFault::JournalFull));
        assert_eq!(pass.kept().len() as u64, size - 1);
        // One that strays is said to, and other channels have room.
        assert_eq!(desk.call(&RT, pass, 2, COUNT), Err(DeskFault::NoChannel));
        assert_eq!(desk.call(&RT, pass, 1, send(0)), Ok(SENT));
        return false;
    }
    desk.close(Global, passes).ok().unwrap().len() == size
}

/// Sends one value more than a ring retains, and receives the news of that and the oldest value.
pub fn ring(size: u64) -> bool {
    let (desk, mut passes, _) = Desk::open(Global, &[Spec::Broadcast(size as u32)], 1).unwrap();
    let pass: &mut Pass<u64> = &mut passes[0];
    let retained = size.next_power_of_two();
    for value in 0..=retained {
        assert_eq!(desk.call(&RT, pass, 0, send(value)), Ok(SENT));
    }
    let receive = ChanCall::B(BCall::TryRecv(1));
    let received = [0; 2].map(|_| desk.call(&RT, pass, 0, receive).unwrap());
    let wanted = [BReply::Lagged(1), BReply::Value(1)].map(ChanReply::B);
    received == wanted && desk.close(Global, passes).ok().unwrap().len() == retained + 3
}

/// Makes a call by a seat, which has to be recorded.
fn called(
    desk: &SeatDesk<u64>,
    seat: DeskSeat<u64>,
    channel: u32,
    call: ChanCall<u64>,
) -> (DeskSeat<u64>, ChanReply<u64>) {
    let (seat, answer) = desk.call(&RT, seat, channel, call);
    (seat, answer.unwrap().reply)
}

pub fn seats(size: u64) -> bool {
    let (desk, seats) = match SeatDesk::open(Global, &SPECS, size as u32) {
        Ok(opened) => opened,
        Err(fault) => {
            assert_eq!(fault, DeskOpenFault::BadActors);
            return false;
        }
    };
    let back = seats
        .into_iter()
        .map(|seat| called(&desk, seat, 63, send(1)).0);
    let back = back.collect();
    has_each(&desk.close(&RT, Global, back).ok().unwrap(), size)
}

pub fn seat_calls(size: u64) -> bool {
    let (desk, mut seats) = SeatDesk::open(Global, &SPECS[..1], 1).unwrap();
    let mut seat = seats.pop().unwrap();
    for value in 1..size {
        seat = called(&desk, seat, 0, send(value)).0;
    }
    let (seat, answer) = desk.call(&RT, seat, 0, send(size));
    match answer {
        Ok(answered) => {
            assert_eq!((answered.stamp, answered.front), (size, size));
            let closed = desk.close(&RT, Global, [seat].into_iter().collect());
            closed.ok().unwrap().len() == size
        }
        Err(fault) => {
            assert_eq!(fault, DeskFault::JournalFull);
            false
        }
    }
}

pub fn seat_ring(size: u64) -> bool {
    let (desk, mut seats) = SeatDesk::open(Global, &[Spec::Broadcast(size as u32)], 1).unwrap();
    let mut seat = seats.pop().unwrap();
    for value in 0..size {
        seat = called(&desk, seat, 0, send(value)).0;
    }
    let (seat, oldest) = called(&desk, seat, 0, ChanCall::B(BCall::TryRecv(1)));
    let closed = desk.close(&RT, Global, [seat].into_iter().collect());
    oldest == ChanReply::B(BReply::Value(0)) && closed.ok().unwrap().len() == size + 1
}

pub fn hand_off(size: u64) -> bool {
    let book = Book::open(Global, crate::channels::channel(SPECS[0])).unwrap();
    let (hand_off, seats) = HandOff::open(Global, book, size as u32).unwrap();
    let take = |seat| {
        let mut lent = hand_off.take(&RT, seat);
        lent.book().take(0, 0, COUNT).unwrap();
        lent.give()
    };
    let back: proved::Vec<_> = seats.into_iter().map(take).collect();
    let book = hand_off.close(back).ok().unwrap();
    book.len() == size
}
