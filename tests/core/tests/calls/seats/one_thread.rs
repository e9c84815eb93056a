//! Desks whose seats call in one thread, and what is refused.

use super::shared::{close_late, meet_and_close, open_one, open_two};
use proved::rw_broadcast::{BCall, BReply};
use proved::rw_desk::{CloseFault, DeskFault, DeskOpenFault};
use proved::rw_seat::{Answered, DeskSeat, SeatDesk};
use proved::rw_watch::{WCall, WReply};
use proved::rw_world::{ChanCall, ChanReply, OpenFault, Spec};
use proved::{Global, RT};

/// The result of a call.
type Answer = Result<Answered<u64>, DeskFault>;

/// Makes the result of a call of a broadcast.
fn answered(reply: BReply<u64>, stamp: u64, front: u64) -> Answer {
    Ok(Answered {
        reply: ChanReply::B(reply),
        stamp,
        front,
    })
}

/// Makes these calls, each on a channel, and pushes their results.
fn call_all(
    desk: &SeatDesk<u64>,
    mut seat: DeskSeat<u64>,
    calls: &[(u32, ChanCall<u64>)],
    answers: &mut Vec<Answer>,
) -> DeskSeat<u64> {
    for (channel, asked) in calls {
        let (back, answer) = desk.call(&RT, seat, *channel, *asked);
        seat = back;
        answers.push(answer);
    }
    seat
}

/// The results of the calls of a desk's one seat; the seat's actor, the stamp of its last call, and how many receipts it has; why
/// the desk doesn't close without it; and the actor, stamp and channel of each call in order.
type Played = (
    Vec<Answer>,
    (u32, u64, usize),
    CloseFault,
    Vec<(u32, u64, u32)>,
);

/// Makes these calls by one seat.
fn played(specs: &[Spec<u64>], calls: &[(u32, ChanCall<u64>)]) -> Played {
    let (desk, seat) = open_one(specs);
    let mut answers = Vec::new();
    let seat = call_all(&desk, seat, calls, &mut answers);
    let known = (seat.actor(), seat.stamp(), seat.kept().len());
    let (fault, order) = close_late(desk, seat);
    (answers, known, fault, order)
}

/// Calls by the one seat of a desk of a broadcast, their results, how many of them are recorded, and the stamp and channel of each
/// of these in order.
struct Row {
    calls: &'static [(u32, ChanCall<u64>)],
    answers: &'static [Answer],
    order: &'static [(u32, u64, u32)],
}

/// Plays a row: each call has its result, and the desk doesn't close without the seat.
fn plays(row: &Row) {
    let specs = [Spec::Broadcast(2)];
    let (answers, known, fault, order) = played(&specs, row.calls);
    let recorded = row.order.len();
    assert_eq!(
        (answers.as_slice(), known, fault, order.as_slice()),
        (
            row.answers,
            (0, recorded as u64, recorded),
            CloseFault::Stranger(0),
            row.order,
        )
    );
}

#[test]
fn seat_desk_of_one() {
    static ROW: Row = Row {
        calls: &[
            (0, ChanCall::B(BCall::Send(0, 4))),
            (0, ChanCall::B(BCall::TryRecv(1))),
        ],
        answers: &[
            Ok(Answered {
                reply: ChanReply::B(BReply::Sent(1)),
                stamp: 1,
                front: 1,
            }),
            Ok(Answered {
                reply: ChanReply::B(BReply::Value(4)),
                stamp: 2,
                front: 2,
            }),
        ],
        order: &[(0, 1, 0), (0, 2, 0)],
    };
    plays(&ROW)
}

#[test]
fn seat_that_would_wait() {
    static ROW: Row = Row {
        calls: &[
            (0, ChanCall::B(BCall::Recv(1))),
            (0, ChanCall::B(BCall::TryRecv(1))),
            (3, ChanCall::B(BCall::TryRecv(1))),
            (0, ChanCall::W(WCall::Borrow(1))),
        ],
        answers: &[
            Err(DeskFault::Waits),
            Ok(Answered {
                reply: ChanReply::B(BReply::Empty),
                stamp: 1,
                front: 1,
            }),
            Err(DeskFault::NoChannel),
            Err(DeskFault::NoChannel),
        ],
        order: &[(0, 1, 0)],
    };
    plays(&ROW)
}

/// The results of the calls of a desk's two seats, how much the first has seen at each of two meetings, and the actor, stamp and
/// channel of each call in order.
type PlayedByTwo = (Vec<Answer>, [Option<u64>; 2], Vec<(u32, u64, u32)>);

/// Makes `ours` by the first seat and `theirs` by the second. The seats then meet on two channels.
fn played_by_two(
    specs: &[Spec<u64>],
    ours: &[(u32, ChanCall<u64>)],
    theirs: &[(u32, ChanCall<u64>)],
    channels: (u32, u32),
) -> PlayedByTwo {
    let (desk, first, second) = open_two(specs);
    let mut answers = Vec::new();
    let first = call_all(&desk, first, ours, &mut answers);
    let second = call_all(&desk, second, theirs, &mut answers);
    let (met, order) = meet_and_close(desk, first, second, channels);
    (answers, met, order)
}

#[test]
fn seat_of_two_channels() {
    let specs = [Spec::Broadcast(2), Spec::Watch(5u64)];
    let ours = [(0, ChanCall::B(BCall::Send(0, 1)))];
    let theirs = [(1, ChanCall::W(WCall::Send(0, 6)))];
    let (answers, met, order) = played_by_two(&specs, &ours, &theirs, (0, 2));
    let stored = Answered {
        reply: ChanReply::W(WReply::Stored),
        stamp: 1,
        front: 1,
    };
    let wanted = [answered(BReply::Sent(1), 1, 1), Ok(stored)];
    assert_eq!(
        (answers.as_slice(), met, order.as_slice()),
        (
            wanted.as_slice(),
            [Some(1), None],
            [(0, 1, 0), (1, 1, 1)].as_slice(),
        )
    );
}

/// Returns the fault of a desk that isn't opened.
fn refusal(specs: &[Spec<u64>], actors: u32) -> DeskOpenFault {
    match SeatDesk::open(Global, specs, actors) {
        Ok(_) => panic!("opened"),
        Err(fault) => fault,
    }
}

#[test]
fn seat_desks_that_are_not_opened() {
    let one = [Spec::Broadcast(2)];
    let none: [Spec<u64>; 0] = [];
    let faults = [refusal(&one, 0), refusal(&one, 65), refusal(&none, 1)];
    let no_channels = DeskOpenFault::World(OpenFault::NoChannels);
    let bad_actors = DeskOpenFault::BadActors;
    assert_eq!(faults, [bad_actors, bad_actors, no_channels]);
}
