//! Seats that make calls in two threads.

use super::shared::{meet_and_close, open_two};
use proved::RT;
use proved::rw_broadcast::BCall;
use proved::rw_seat::{DeskSeat, SeatDesk};
use proved::rw_world::{ChanCall, Spec};
use support::side_by_side;

/// Sends 100 values by sender 0. Returns the length of the last front, if each is longer than the one before it.
fn send_hundred(desk: &SeatDesk<u64>, mut seat: DeskSeat<u64>) -> (DeskSeat<u64>, Option<u64>) {
    let mut last = 0;
    let mut rose = true;
    for value in 0..100 {
        let (back, answer) = desk.call(&RT, seat, 0, ChanCall::B(BCall::Send(0, value)));
        seat = back;
        match answer {
            Ok(answered) => {
                rose = rose && last < answered.front;
                last = answered.front;
            }
            Err(_) => rose = false,
        }
    }
    (seat, rose.then_some(last))
}

/// Does the same with two seats, in two threads.
fn send_both(
    desk: &SeatDesk<u64>,
    one: DeskSeat<u64>,
    two: DeskSeat<u64>,
) -> ((DeskSeat<u64>, Option<u64>), (DeskSeat<u64>, Option<u64>)) {
    side_by_side(|| send_hundred(desk, one), || send_hundred(desk, two))
}

/// The length of each seat's last front; how much the first has seen when they meet, on channel 0 and on one that isn't there;
/// and the actor, stamp and channel of each call in order.
type Sent = ([Option<u64>; 2], [Option<u64>; 2], Vec<(u32, u64, u32)>);

/// Sends with two seats of a desk, in two threads, and then lets the seats meet.
fn sent(specs: &[Spec<u64>]) -> Sent {
    let (desk, one, two) = open_two(specs);
    let ((one, first), (two, second)) = send_both(&desk, one, two);
    let (met, order) = meet_and_close(desk, one, two, (0, 1));
    ([first, second], met, order)
}

/// Returns how many of the calls are an actor's.
fn calls_of(order: &[(u32, u64, u32)], actor: u32) -> usize {
    order.iter().filter(|call| call.0 == actor).count()
}

#[test]
fn seats_of_two_threads() {
    let specs = [Spec::Broadcast(128)];
    let (rose, met, order) = sent(&specs);
    let [Some(first), Some(second)] = rose else {
        panic!("a front that doesn't rise");
    };
    assert_eq!((first.max(second), met), (200, [Some(200), None]));
    assert_eq!(
        (order.len(), calls_of(&order, 0), calls_of(&order, 1)),
        (200, 100, 100)
    );
}
