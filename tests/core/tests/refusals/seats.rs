//! Desks with seats: opened, called, seats that meet, and closed.

use crate::desks::{ended, say_end};
use crate::met::{refused, say};
use crate::readings::SPECS;
use proved::rw_broadcast::BCall;
use proved::rw_desk::{CloseFault, DeskFault, DeskOpenFault};
use proved::rw_seat::{Answered, DeskSeat, SeatDesk};
use proved::rw_watch::WCall;
use proved::rw_world::{ChanCall, OpenFault, Spec};
use proved::{Global, RT, Vec};

/// What is called by a seat, each time by the channel's number.
static CALLS: [(u32, ChanCall<u64>); 6] = [
    (0, ChanCall::B(BCall::Send(0, 4))),
    (0, ChanCall::B(BCall::TryRecv(1))),
    (1, ChanCall::W(WCall::Send(0, 8))),
    (1, ChanCall::W(WCall::CloneReceiver(1))),
    (0, ChanCall::B(BCall::Subscribe(0))),
    (0, ChanCall::W(WCall::Borrow(1))),
];

/// A desk with its seats.
fn new_desk(
    specs: &[Spec<u64>],
    actors: u32,
) -> Result<(SeatDesk<u64>, Vec<DeskSeat<u64>>), DeskOpenFault> {
    match SeatDesk::open(Global, specs, actors) {
        Err(DeskOpenFault::World(OpenFault::NoMemory)) => {
            refused(true);
            SeatDesk::open(Global, specs, actors)
        }
        answer => answer,
    }
}

/// Makes a call, with one retry. At a refusal the seat has the clock and the receipts that it had.
fn ask(
    desk: &SeatDesk<u64>,
    seat: DeskSeat<u64>,
    channel: u32,
    made: ChanCall<u64>,
) -> (DeskSeat<u64>, Result<Answered<u64>, DeskFault>) {
    let before = known(&seat);
    match desk.call(&RT, seat, channel, made) {
        (seat, Err(DeskFault::NoMemory)) => {
            refused(known(&seat) == before);
            desk.call(&RT, seat, channel, made)
        }
        answered => answered,
    }
}

/// Makes calls by a seat, and says the result of each. The seat comes back even where nothing is said.
fn call_all(
    desk: &SeatDesk<u64>,
    mut seat: DeskSeat<u64>,
    calls: &[(u32, ChanCall<u64>)],
) -> DeskSeat<u64> {
    for (channel, made) in calls {
        let (back, answer) = ask(desk, seat, *channel, *made);
        seat = back;
        say!("  {answer:?}");
    }
    seat
}

/// Makes the calls again, `rounds` times.
fn call_again(
    desk: &SeatDesk<u64>,
    mut seat: DeskSeat<u64>,
    calls: &[(u32, ChanCall<u64>)],
    rounds: u32,
) -> DeskSeat<u64> {
    for _round in 0..rounds {
        let back = call_all(desk, seat, calls);
        seat = back;
    }
    seat
}

/// A seat's clock, and how many receipts it has.
fn known(seat: &DeskSeat<u64>) -> (u64, usize) {
    (seat.stamp(), seat.kept().len())
}

/// How many seats there are, and how many receipts they have.
fn counts_of(seats: &[DeskSeat<u64>]) -> (usize, usize) {
    (
        seats.len(),
        seats.iter().map(|seat| seat.kept().len()).sum(),
    )
}

/// Closes a desk, with one retry. At a refusal the desk and the seats are returned, and it is closed again.
fn ask_close(desk: SeatDesk<u64>, seats: Vec<DeskSeat<u64>>) -> Result<u64, CloseFault> {
    let before = counts_of(&seats);
    match desk.close(&RT, Global, seats) {
        Err((CloseFault::NoMemory, desk, seats)) => {
            refused(counts_of(&seats) == before);
            ended(desk.close(&RT, Global, seats))
        }
        closed => ended(closed),
    }
}

/// Closes a desk with these seats and two more, and says how long its run is.
fn close_with(
    desk: SeatDesk<u64>,
    mut seats: Vec<DeskSeat<u64>>,
    one: DeskSeat<u64>,
    two: DeskSeat<u64>,
) {
    if seats.push(one).is_err() {
        return say!("  no room for a seat");
    }
    if seats.push(two).is_err() {
        return say!("  no room for a seat");
    }
    say_end(ask_close(desk, seats))
}

/// Makes calls by the two seats of a new desk, which meet then, and closes the desk.
fn play_desk(specs: &[Spec<u64>], calls: &[(u32, ChanCall<u64>)]) {
    let Ok((desk, mut seats)) = new_desk(specs, 2) else {
        return say!("  isn't opened");
    };
    let Some(two) = seats.pop() else {
        return say!("  no second seat");
    };
    let Some(one) = seats.pop() else {
        return say!("  no first seat");
    };
    let one = call_all(&desk, one, calls);
    let two = call_again(&desk, two, calls, 6);
    let (one, two, met_at) = desk.meet(&RT, one, two, 0);
    say!("  {met_at:?}");
    close_with(desk, seats, one, two);
}

/// Plays a desk of two seats.
pub fn play() {
    say!("a desk with seats");
    play_desk(&SPECS, &CALLS)
}
