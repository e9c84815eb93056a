//! Rows of a watch channel.
use crate::channels::playing::{Expected, play};
use proved::Global;
use proved::rw_handles::Kind;
use proved::rw_watch::{WCall, WReply, Watch};
use support::fixtures::Shows;
use support::fixtures::watches::{OPENING, Place, opening};

/// Plays a row, on channels of this value.
fn play_at(init: u64, steps: &[Wanted]) {
    let recorded = Watch::open(Global, init).unwrap();
    let walked = Watch::open(Global, init).unwrap();
    assert_eq!(walked.place(), opening(init));
    play(recorded, walked, steps)
}

type Wanted = Expected<WCall<u64>, WReply<u64>, Place>;

#[test]
fn same_value_is_a_change() {
    const UNSEEN: Place = Place {
        value: 7,
        version: 1,
        receivers: (None, Some((Some(0), false)), None),
        ..OPENING
    };
    const SEEN: Place = Place {
        receivers: (None, Some((Some(1), true)), None),
        ..UNSEEN
    };
    static STEPS: [Wanted; 5] = [
        (WCall::HasChanged(1), WReply::Flag(false), None),
        (WCall::Send(0, 7), WReply::Stored, None),
        (WCall::HasChanged(1), WReply::Flag(true), Some(UNSEEN)),
        (WCall::Changed(1), WReply::Done, None),
        (WCall::HasChanged(1), WReply::Flag(false), Some(SEEN)),
    ];
    play_at(7, &STEPS)
}

#[test]
fn last_change_of_a_closed_watch() {
    const CLOSED: Place = Place {
        version: 1,
        value: 8,
        closed: true,
        kinds: (None, Some(Kind::Receiver), None),
        receivers: (None, Some((Some(1), true)), None),
        ..OPENING
    };
    static STEPS: [Wanted; 6] = [
        (WCall::Send(0, 8), WReply::Stored, None),
        (WCall::DropHandle(0), WReply::Dropped, None),
        (WCall::HasChanged(1), WReply::Closed, None),
        (WCall::Changed(1), WReply::Done, None),
        (WCall::Changed(1), WReply::Closed, None),
        (WCall::Borrow(1), WReply::Value(8), Some(CLOSED)),
    ];
    play_at(7, &STEPS)
}

#[test]
fn watch_without_receivers() {
    static STEPS: [Wanted; 10] = [
        (WCall::DropHandle(1), WReply::Dropped, None),
        (WCall::IsClosed(0), WReply::Flag(true), None),
        (WCall::AwaitClosed(0), WReply::Done, None),
        (WCall::ReceiverCount(0), WReply::Count(0), None),
        (WCall::Send(0, 2), WReply::NoReceivers(2), None),
        (WCall::Borrow(0), WReply::Value(1), None),
        (WCall::SendReplace(0, 3), WReply::Old(1), None),
        (WCall::Subscribe(0), WReply::New(2), None),
        (WCall::HasChanged(2), WReply::Flag(false), None),
        (WCall::Borrow(2), WReply::Value(3), None),
    ];
    play_at(1, &STEPS)
}

#[test]
fn silent_modification() {
    const SILENT: Place = Place {
        value: 5,
        ..OPENING
    };
    static STEPS: [Wanted; 3] = [
        (
            WCall::Modify {
                told: false,
                handle: 0,
                value: 5,
            },
            WReply::Told(false),
            None,
        ),
        (WCall::Borrow(1), WReply::Value(5), None),
        (WCall::HasChanged(1), WReply::Flag(false), Some(SILENT)),
    ];
    play_at(1, &STEPS)
}

#[test]
fn marks_are_cloned() {
    const CLONED: Place = Place {
        value: 4,
        made: 3,
        kinds: (
            Some(Kind::Sender),
            Some(Kind::Receiver),
            Some(Kind::Receiver),
        ),
        receivers: (None, Some((Some(0), true)), Some((None, false))),
        ..OPENING
    };
    const SEEN: Place = Place {
        receivers: (None, Some((Some(0), true)), Some((Some(0), true))),
        ..CLONED
    };
    static STEPS: [Wanted; 7] = [
        (WCall::MarkChanged(1), WReply::Done, None),
        (WCall::MarkChanged(1), WReply::Done, None),
        (WCall::CloneReceiver(1), WReply::New(2), None),
        (WCall::MarkUnchanged(1), WReply::Done, Some(CLONED)),
        (WCall::HasChanged(1), WReply::Flag(false), None),
        (WCall::HasChanged(2), WReply::Flag(true), None),
        (WCall::Changed(2), WReply::Done, Some(SEEN)),
    ];
    play_at(4, &STEPS)
}

#[test]
fn four_steps_back() {
    const ALONE: Place = Place {
        value: 7,
        kinds: (Some(Kind::Sender), None, None),
        receivers: (None, None, None),
        ..OPENING
    };
    const MODIFIED: Place = Place {
        version: 1,
        value: 9,
        made: 3,
        kinds: (Some(Kind::Sender), None, Some(Kind::Receiver)),
        receivers: (None, None, Some((Some(1), true))),
        ..ALONE
    };
    static STEPS: [Wanted; 5] = [
        (WCall::DropHandle(1), WReply::Dropped, Some(ALONE)),
        (
            WCall::Modify {
                told: true,
                handle: 0,
                value: 9,
            },
            WReply::Told(true),
            None,
        ),
        (WCall::Subscribe(0), WReply::New(2), None),
        (WCall::HasChanged(2), WReply::Flag(false), None),
        (WCall::Borrow(2), WReply::Value(9), Some(MODIFIED)),
    ];
    play_at(7, &STEPS)
}

#[test]
fn refused_and_waiting_calls() {
    const OPENED: Place = Place {
        value: 3,
        ..OPENING
    };
    static STEPS: [Wanted; 10] = [
        (WCall::Send(5, 1), WReply::Unknown, Some(OPENED)),
        (WCall::Update(0), WReply::WrongKind, Some(OPENED)),
        (WCall::Changed(1), WReply::Waits, Some(OPENED)),
        (WCall::AwaitClosed(0), WReply::Waits, Some(OPENED)),
        (WCall::CloneSender(0), WReply::New(2), None),
        (WCall::DropHandle(2), WReply::Dropped, None),
        (WCall::Borrow(2), WReply::Gone, None),
        (WCall::Send(0, 4), WReply::Stored, None),
        (WCall::Update(1), WReply::Value(4), None),
        (WCall::HasChanged(1), WReply::Flag(false), None),
    ];
    play_at(3, &STEPS)
}
