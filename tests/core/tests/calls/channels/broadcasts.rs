//! Rows of a broadcast channel.
use crate::channels::playing::{Expected, play};
use proved::Global;
use proved::rw_broadcast::{BCall, BReply, Broadcast, Refusal};
use proved::rw_handles::{HandleFault, Kind};
use support::fixtures::broadcasts::{OPENING, Place};

/// Plays a row, on channels of this capacity.
fn play_at(capacity: u32, steps: &[Wanted]) {
    let recorded = Broadcast::open(Global, capacity).unwrap();
    let walked = Broadcast::open(Global, capacity).unwrap();
    play(recorded, walked, steps)
}

type Wanted = Expected<BCall<u64>, BReply<u64>, Place>;

#[test]
fn overrun_walked_back() {
    const FULL: Place = Place {
        capacity: 2,
        sent: 2,
        queued: 2,
        window: [Some(1), Some(2), None, None, None],
        receivers: (None, Some((0, 2, 0)), None),
        ..OPENING
    };
    const OVERRUN: Place = Place {
        sent: 3,
        window: [Some(2), Some(3), None, None, None],
        receivers: (None, Some((0, 3, 1)), None),
        ..FULL
    };
    const READ: Place = Place {
        queued: 0,
        receivers: (None, Some((3, 0, 0)), None),
        ..OVERRUN
    };
    static STEPS: [Wanted; 7] = [
        (BCall::Send(0, 1), BReply::Sent(1), None),
        (BCall::Send(0, 2), BReply::Sent(1), Some(FULL)),
        (BCall::Send(0, 3), BReply::Sent(1), Some(OVERRUN)),
        (BCall::TryRecv(1), BReply::Lagged(1), None),
        (BCall::TryRecv(1), BReply::Value(2), None),
        (BCall::TryRecv(1), BReply::Value(3), None),
        (BCall::TryRecv(1), BReply::Empty, Some(READ)),
    ];
    play_at(2, &STEPS)
}

#[test]
fn capacity_is_rounded_up() {
    const OVERRUN: Place = Place {
        capacity: 4,
        sent: 5,
        queued: 4,
        window: [Some(2), Some(3), Some(4), Some(5), None],
        receivers: (None, Some((0, 5, 1)), None),
        ..OPENING
    };
    const MOVED: Place = Place {
        receivers: (None, Some((1, 4, 0)), None),
        ..OVERRUN
    };
    static STEPS: [Wanted; 6] = [
        (BCall::Send(0, 1), BReply::Sent(1), None),
        (BCall::Send(0, 2), BReply::Sent(1), None),
        (BCall::Send(0, 3), BReply::Sent(1), None),
        (BCall::Send(0, 4), BReply::Sent(1), None),
        (BCall::Send(0, 5), BReply::Sent(1), Some(OVERRUN)),
        (BCall::TryRecv(1), BReply::Lagged(1), Some(MOVED)),
    ];
    play_at(3, &STEPS)
}

#[test]
fn lagged_then_closed() {
    const CLOSED: Place = Place {
        sent: 2,
        closed: true,
        window: [Some(2), None, None, None, None],
        kinds: (None, Some(Kind::Receiver), None),
        receivers: (None, Some((2, 0, 0)), None),
        ..OPENING
    };
    static STEPS: [Wanted; 6] = [
        (BCall::Send(0, 1), BReply::Sent(1), None),
        (BCall::Send(0, 2), BReply::Sent(1), None),
        (BCall::DropHandle(0), BReply::Dropped, None),
        (BCall::TryRecv(1), BReply::Lagged(1), None),
        (BCall::TryRecv(1), BReply::Value(2), None),
        (BCall::TryRecv(1), BReply::Closed, Some(CLOSED)),
    ];
    play_at(1, &STEPS)
}

#[test]
fn send_without_receivers() {
    const ALONE: Place = Place {
        capacity: 4,
        kinds: (Some(Kind::Sender), None, None),
        receivers: (None, None, None),
        ..OPENING
    };
    static STEPS: [Wanted; 7] = [
        (BCall::DropHandle(1), BReply::Dropped, Some(ALONE)),
        (BCall::Send(0, 9), BReply::NoReceivers(9), Some(ALONE)),
        (BCall::Subscribe(0), BReply::New(2), None),
        (BCall::ReceiverCount(0), BReply::Count(1), None),
        (BCall::Send(0, 9), BReply::Sent(1), None),
        (BCall::Recv(2), BReply::Value(9), None),
        (BCall::Recv(2), BReply::Waits, None),
    ];
    play_at(4, &STEPS)
}

#[test]
fn drop_reads_the_rest() {
    const UNREAD: Place = Place {
        capacity: 4,
        sent: 2,
        queued: 2,
        window: [Some(5), Some(6), None, None, None],
        receivers: (None, Some((0, 2, 0)), None),
        ..OPENING
    };
    const DROPPED: Place = Place {
        queued: 0,
        kinds: (Some(Kind::Sender), None, None),
        receivers: (None, None, None),
        ..UNREAD
    };
    static STEPS: [Wanted; 3] = [
        (BCall::Send(0, 5), BReply::Sent(1), None),
        (BCall::Send(0, 6), BReply::Sent(1), Some(UNREAD)),
        (BCall::DropHandle(1), BReply::Dropped, Some(DROPPED)),
    ];
    play_at(4, &STEPS)
}

#[test]
fn resubscribe_skips_the_backlog() {
    const RESUBSCRIBED: Place = Place {
        capacity: 2,
        sent: 5,
        queued: 2,
        made: 3,
        window: [Some(4), Some(5), None, None, None],
        kinds: (
            Some(Kind::Sender),
            Some(Kind::Receiver),
            Some(Kind::Receiver),
        ),
        receivers: (None, Some((0, 5, 3)), Some((5, 0, 0))),
        ..OPENING
    };
    static STEPS: [Wanted; 9] = [
        (BCall::Send(0, 1), BReply::Sent(1), None),
        (BCall::Send(0, 2), BReply::Sent(1), None),
        (BCall::Send(0, 3), BReply::Sent(1), None),
        (BCall::Send(0, 4), BReply::Sent(1), None),
        (BCall::Send(0, 5), BReply::Sent(1), None),
        (BCall::Resubscribe(1), BReply::New(2), Some(RESUBSCRIBED)),
        (BCall::Send(0, 6), BReply::Sent(2), None),
        (BCall::ReceiverLen(1), BReply::Count(6), None),
        (BCall::ReceiverLen(2), BReply::Count(1), None),
    ];
    play_at(2, &STEPS)
}

#[test]
fn sender_len_counts_the_slowest() {
    static STEPS: [Wanted; 9] = [
        (BCall::Subscribe(0), BReply::New(2), None),
        (BCall::Send(0, 10), BReply::Sent(2), None),
        (BCall::Send(0, 20), BReply::Sent(2), None),
        (BCall::Send(0, 30), BReply::Sent(2), None),
        (BCall::SenderLen(0), BReply::Count(3), None),
        (BCall::Recv(1), BReply::Value(10), None),
        (BCall::SenderLen(0), BReply::Count(3), None),
        (BCall::Recv(2), BReply::Value(10), None),
        (BCall::SenderLen(0), BReply::Count(2), None),
    ];
    play_at(16, &STEPS)
}

#[test]
fn refused_handles() {
    const OPENED: Place = Place {
        capacity: 2,
        ..OPENING
    };
    static STEPS: [Wanted; 5] = [
        (BCall::Send(5, 1), BReply::Unknown, Some(OPENED)),
        (BCall::Send(1, 1), BReply::WrongKind, Some(OPENED)),
        (BCall::Recv(0), BReply::WrongKind, Some(OPENED)),
        (BCall::DropHandle(1), BReply::Dropped, None),
        (BCall::Recv(1), BReply::Gone, None),
    ];
    play_at(2, &STEPS)
}

#[test]
fn weak_senders() {
    const DOWNGRADED: Place = Place {
        capacity: 2,
        made: 3,
        weak: 1,
        kinds: (Some(Kind::Sender), Some(Kind::Receiver), Some(Kind::Weak)),
        ..OPENING
    };
    const CLOSED: Place = Place {
        made: 4,
        closed: true,
        kinds: (None, Some(Kind::Receiver), Some(Kind::Weak)),
        ..DOWNGRADED
    };
    static STEPS: [Wanted; 7] = [
        (BCall::Downgrade(0), BReply::New(2), Some(DOWNGRADED)),
        (BCall::Upgrade(2), BReply::New(3), None),
        (BCall::DropHandle(0), BReply::Dropped, None),
        (BCall::TryRecv(1), BReply::Empty, None),
        (BCall::DropHandle(3), BReply::Dropped, Some(CLOSED)),
        (BCall::Upgrade(2), BReply::NoSender, Some(CLOSED)),
        (BCall::TryRecv(1), BReply::Closed, Some(CLOSED)),
    ];
    play_at(2, &STEPS)
}

#[test]
fn weak_senders_refused() {
    static STEPS: [Wanted; 10] = [
        (BCall::Downgrade(0), BReply::New(2), None),
        (BCall::CloneWeak(2), BReply::New(3), None),
        (BCall::Send(2, 1), BReply::WrongKind, None),
        (BCall::Downgrade(2), BReply::WrongKind, None),
        (BCall::Upgrade(0), BReply::WrongKind, None),
        (BCall::CloneWeak(1), BReply::WrongKind, None),
        (BCall::DropHandle(2), BReply::Dropped, None),
        (BCall::Upgrade(2), BReply::Gone, None),
        (BCall::Upgrade(3), BReply::New(4), None),
        (BCall::Upgrade(5), BReply::Unknown, None),
    ];
    play_at(2, &STEPS)
}

/// The calls of a long row, by their number in it.
#[derive(Clone, Copy)]
enum Repeated {
    /// Sends of the values 0, 1, .. .
    Send,
    /// Senders cloned from sender 0, from handle 2 on.
    CloneSender,
    /// Weak senders cloned from handle 2, which is made first, from handle 3 on.
    CloneWeak,
}

impl Repeated {
    /// Returns the number of the first call.
    fn first(self) -> u32 {
        match self {
            Repeated::Send => 0,
            Repeated::CloneSender | Repeated::CloneWeak => 2,
        }
    }

    /// Returns the call of this number, and its reply.
    fn step(self, number: u32) -> Wanted {
        match self {
            Repeated::Send => (BCall::Send(0, u64::from(number)), BReply::Sent(1), None),
            Repeated::CloneSender => (BCall::CloneSender(0), BReply::New(number), None),
            Repeated::CloneWeak if number == 2 => (BCall::Downgrade(0), BReply::New(2), None),
            Repeated::CloneWeak => (BCall::CloneWeak(2), BReply::New(number), None),
        }
    }
}

/// Returns a row of such calls up to a number, and then the last steps.
fn long_row(repeated: Repeated, end: u32, last: &[Wanted]) -> Vec<Wanted> {
    let mut steps = Vec::new();
    for number in repeated.first()..end {
        steps.push(repeated.step(number));
    }
    steps.extend_from_slice(last);
    steps
}

/// The limit of handles is checked before whether there is a sender.
#[test]
fn upgrade_at_the_handle_limit() {
    static LAST: [Wanted; 2] = [
        (BCall::DropHandle(0), BReply::Dropped, None),
        (BCall::Upgrade(2), BReply::TooManyHandles, None),
    ];
    let steps = long_row(Repeated::CloneWeak, 65_536, &LAST);
    play_at(1, &steps)
}

#[test]
fn upgraded_senders() {
    const REFUSED: Refusal = Refusal::Handle(HandleFault::WrongKind);
    static REPLIES: [(BReply<u64>, Result<Option<u32>, Refusal>); 3] = [
        (BReply::New(3), Ok(Some(3))),
        (BReply::NoSender, Ok(None)),
        (BReply::WrongKind, Err(REFUSED)),
    ];
    for (reply, sender) in &REPLIES {
        assert_eq!(reply.upgraded(), *sender);
    }
}

#[test]
fn handle_limit() {
    const FULL: Place = Place {
        made: 65_536,
        ..OPENING
    };
    static LAST: [Wanted; 3] = [
        (BCall::CloneSender(0), BReply::TooManyHandles, None),
        (BCall::DropHandle(2), BReply::Dropped, Some(FULL)),
        (BCall::CloneSender(0), BReply::TooManyHandles, Some(FULL)),
    ];
    let steps = long_row(Repeated::CloneSender, 65_536, &LAST);
    play_at(1, &steps)
}

/// The greatest channel, filled and overrun by one value: the first is evicted, and one place back it is there again.
#[test]
fn greatest_capacity_overrun_by_one() {
    const FULL: Place = Place {
        capacity: 65_536,
        sent: 65_536,
        queued: 65_536,
        window: [Some(0), Some(1), Some(2), Some(3), Some(4)],
        receivers: (None, Some((0, 65_536, 0)), None),
        ..OPENING
    };
    const OVERRUN: Place = Place {
        sent: 65_537,
        window: [Some(1), Some(2), Some(3), Some(4), Some(5)],
        receivers: (None, Some((0, 65_537, 1)), None),
        ..FULL
    };
    static LAST: [Wanted; 2] = [
        (BCall::Send(0, 65_535), BReply::Sent(1), Some(FULL)),
        (BCall::Send(0, 65_536), BReply::Sent(1), Some(OVERRUN)),
    ];
    let steps = long_row(Repeated::Send, 65_535, &LAST);
    play_at(65_536, &steps)
}
