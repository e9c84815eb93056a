//! Channels with their last calls, and the windows that are made of them, worked by hand.

use proved::Global;
use proved::rw_recording::{BCall, ChanCall, Dozing, Flight, Kept, Spec, Window, WindowFault};

/// A broadcast that retains one value, with the last of these calls, of which a chunk has `chunk`.
fn flown(chunk: usize, calls: &[BCall<u64>]) -> Flight {
    let mut flight = Flight::open(Global, Spec::Broadcast(1), chunk).unwrap();
    call_all(&mut flight, calls);
    flight
}

/// Makes these calls by an actor that hears of no stamp.
fn call_all(flight: &mut Flight, calls: &[BCall<u64>]) {
    for call in calls {
        flight.call(0, 0, ChanCall::B(*call)).unwrap();
    }
}

/// The window of what is kept, whose calls come behind its lead.
fn window_of(kept: Kept) -> Window {
    let lead = kept.lead(Global, 63, 0).unwrap();
    let raised = lead.len();
    lead.play(raised).unwrap()
}

const SEND: BCall<u64> = BCall::Send(0, 7);

#[test]
fn the_calls_of_before_a_renumbering_are_forgotten_once_a_chunk_follows() {
    let mut flight = flown(2, &[SEND; 2]);
    assert!(flight.renumber(Global).unwrap().is_some());
    call_all(&mut flight, &[SEND]);
    flight.forget_past();
    assert_eq!((flight.is_joined(), flight.past_len()), (true, 2));
    call_all(&mut flight, &[SEND]);
    flight.forget_past();
    assert_eq!((flight.is_joined(), flight.past_len()), (false, 0));
}

#[test]
fn calls_are_joined_in_their_order_until_a_chunk_between_them_is_dropped() {
    let mut flight = flown(2, &[SEND; 2]);
    assert!(flight.renumber(Global).unwrap().is_some());
    // A whole chunk, and one call of the next.
    call_all(&mut flight, &[SEND; 3]);
    assert!(flight.is_joined());
    let window = window_of(flight.kept(Global).unwrap());
    assert_eq!(window.recording().len() - window.lead(), 5);
    call_all(&mut flight, &[SEND]);
    assert_eq!((flight.dropped(), flight.is_joined()), (2, false));
}

#[test]
fn a_receiver_that_nobody_asks_lags_by_one_in_the_lead_and_really_by_more() {
    // The last send is kept. Of the three before it, two were overwritten before receiver 1 received them. The lead has it lag by one, so it sends the
    // last two.
    let window = window_of(flown(1, &[SEND; 4]).kept(Global).unwrap());
    let dozing = Dozing {
        receiver: 1,
        lag: 2,
    };
    assert_eq!(window.dozing(), [dozing]);
    assert_eq!(window.sent_before(), 1);
}

#[test]
fn calls_begin_behind_the_last_that_asks_a_receiver_which_lags_too_far() {
    // At the receive, receiver 1 lags by two.
    let calls = [SEND, SEND, SEND, BCall::TryRecv(1), SEND];
    let mut kept = flown(16, &calls).kept(Global).unwrap();
    kept.settle(Global, 2).unwrap();
    assert_eq!((kept.len(), kept.dropped()), (5, 0));
    kept.settle(Global, 1).unwrap();
    assert_eq!((kept.len(), kept.dropped()), (1, 4));
    kept.skip(Global, 100).unwrap();
    assert_eq!((kept.len(), kept.dropped()), (0, 5));
}

#[test]
fn a_call_by_a_handle_that_was_dropped_before_the_window_has_none() {
    // Only the last call is kept, and handle 2 is gone by then.
    let calls = [BCall::Subscribe(0), BCall::DropHandle(2), BCall::TryRecv(2)];
    let lead = flown(1, &calls).kept(Global).unwrap();
    let lead = lead.lead(Global, 63, 0).unwrap();
    let raised = lead.len();
    assert_eq!(lead.play(raised).err(), Some(WindowFault::Dropped));
}

#[test]
fn a_handle_that_is_created_in_a_window_has_the_next_number() {
    // Handle 2 was dropped before the last call, which creates handle 3. The lead has the other two.
    let calls = [
        BCall::Subscribe(0),
        BCall::DropHandle(2),
        BCall::Subscribe(0),
    ];
    let window = window_of(flown(1, &calls).kept(Global).unwrap());
    let numbers = [0, 1, 2, 3].map(|handle| window.number(handle));
    assert_eq!(numbers, [Some(0), Some(1), None, Some(2)]);
}
