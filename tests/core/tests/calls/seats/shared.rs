//! How the tests open desks with seats, and close them.

use proved::rw_desk::CloseFault;
use proved::rw_journal::Run;
use proved::rw_seat::{DeskSeat, SeatDesk};
use proved::rw_world::Spec;
use proved::{Global, RT};

/// Opens a desk of one actor, with its seat.
pub fn open_one(specs: &[Spec<u64>]) -> (SeatDesk<u64>, DeskSeat<u64>) {
    let (desk, mut seats) = SeatDesk::open(Global, specs, 1).unwrap();
    let seat = seats.pop().unwrap();
    (desk, seat)
}

/// Opens a desk of two actors, with their seats.
pub fn open_two(specs: &[Spec<u64>]) -> (SeatDesk<u64>, DeskSeat<u64>, DeskSeat<u64>) {
    let (desk, mut seats) = SeatDesk::open(Global, specs, 2).unwrap();
    let second = seats.pop().unwrap();
    let first = seats.pop().unwrap();
    (desk, first, second)
}

/// Closes a desk with these seats, and returns the order of its calls.
pub fn close_all(
    desk: SeatDesk<u64>,
    seats: impl IntoIterator<Item = DeskSeat<u64>>,
) -> Vec<(u32, u64, u32)> {
    let Ok(run) = desk.close(&RT, Global, seats.into_iter().collect()) else {
        panic!("not closed");
    };
    order(&run)
}

/// Closes a desk without its seat, which is refused, and then with it. Returns why it was refused, and the order of the calls.
pub fn close_late(desk: SeatDesk<u64>, seat: DeskSeat<u64>) -> (CloseFault, Vec<(u32, u64, u32)>) {
    let Err((fault, desk, seats)) = desk.close(&RT, Global, proved::Vec::new(Global)) else {
        panic!("closed without a seat");
    };
    (fault, close_all(desk, seats.into_iter().chain([seat])))
}

/// Lets two seats meet on two channels, and closes the desk with them. Returns how much the first has seen at each meeting, and
/// the order of the calls.
pub fn meet_and_close(
    desk: SeatDesk<u64>,
    first: DeskSeat<u64>,
    second: DeskSeat<u64>,
    channels: (u32, u32),
) -> ([Option<u64>; 2], Vec<(u32, u64, u32)>) {
    let (first, second, met) = desk.meet(&RT, first, second, channels.0);
    let (first, second, met_again) = desk.meet(&RT, first, second, channels.1);
    ([met, met_again], close_all(desk, [second, first]))
}

/// Returns each entry's actor, stamp and channel.
fn order(run: &Run<u64>) -> Vec<(u32, u64, u32)> {
    let entries = run.entries().iter();
    entries
        .map(|entry| (entry.actor, entry.stamp, entry.call.channel))
        .collect()
}
