//! What two threads do at a desk, each by the pass of one actor.

use super::shared::OfTwo;
use crate::flags::{is_awaited_in_time, is_set_in_time};
use proved::RT;
use proved::rw_broadcast::BCall;
use proved::rw_desk::{BRx, BTx, Desk, DeskFault, Ends, Pass, WTx};
use proved::rw_watch::WCall;
use proved::rw_world::{ChanCall, Spec};
use std::sync::atomic::{AtomicBool, Ordering};
use support::side_by_side;

/// A wait on channel 0 of a desk, and the call that ends it.
#[derive(Clone, Copy)]
pub struct Case {
    pub spec: Spec<u64>,
    pub waiting: ChanCall<u64>,
    pub ending: ChanCall<u64>,
    /// Whether that call is made as one that waits, as scripts make all of theirs.
    pub by_wait_call: bool,
}

/// What the other thread does, and meanwhile this one.
#[derive(Clone, Copy)]
pub enum Play {
    /// Both add one to the value of a watch, 1,000 times.
    Add,
    /// A receiver waits for a value, which is sent once it waits.
    Receive,
    /// Each waits for the other's value 1,000 times, and answers it. So each send is the only one that ends the other's wait.
    Answer,
    /// A closure under the lock of one watch waits for an answered call of the other watch.
    Modify,
    /// A send on a broadcast is held until a watch was written.
    Hold,
    /// A reader waits for the value 3, to which two closures add, each once it waits.
    AddForReader,
    /// A call waits, and calls are made that end no wait, and then the one that ends it.
    End(Case),
}

/// What the threads tell each other.
struct Told {
    by_other: AtomicBool,
    by_this: AtomicBool,
}

/// Adds one to the value, 1,000 times.
fn add_thousand(desk: &Desk<u64>, pass: &mut Pass<u64>, sender: &WTx) {
    for _ in 0..1000 {
        let _ = desk.w_send_if_modified(&RT, pass, sender, |value| {
            *value = value.wrapping_add(1);
            true
        });
    }
}

/// Waits for a value and answers it, 1,000 times.
fn answer_thousand(desk: &Desk<u64>, pass: &mut Pass<u64>, receiver: &BRx, sender: &BTx) {
    for _ in 0..1000 {
        let _ = desk.b_recv(&RT, pass, receiver);
        let _ = desk.b_send(&RT, pass, sender, 6);
    }
}

/// Sends a value and waits for the answer, 1,000 times.
fn ask_thousand(desk: &Desk<u64>, pass: &mut Pass<u64>, sender: &BTx, receiver: &BRx) {
    for _ in 0..1000 {
        let _ = desk.b_send(&RT, pass, sender, 5);
        let _ = desk.b_recv(&RT, pass, receiver);
    }
}

/// Stores 1 by a closure if this thread tells in time that its call was answered, and else 2.
fn modify_held(desk: &Desk<u64>, pass: &mut Pass<u64>, sender: &WTx, told: &Told) {
    let _ = desk.w_send_if_modified(&RT, pass, sender, |value| {
        told.by_other.store(true, Ordering::SeqCst);
        *value = if is_set_in_time(&told.by_this) { 1 } else { 2 };
        true
    });
}

/// What the other thread does. Says whether it was held no longer than the limit.
fn play_there(
    desk: &Desk<u64>,
    pass: &mut Pass<u64>,
    ends: &[Ends],
    play: Play,
    told: &Told,
) -> bool {
    match (play, ends) {
        (Play::Add, [Ends::Watch(sender, _)]) => add_thousand(desk, pass, sender),
        (Play::Receive, [Ends::Broadcast(_, receiver)]) => {
            let _ = desk.b_recv(&RT, pass, receiver);
        }
        (Play::Answer, [Ends::Broadcast(_, receiver), Ends::Broadcast(sender, _)]) => {
            answer_thousand(desk, pass, receiver, sender);
        }
        (Play::Modify, [Ends::Watch(here, _), _]) => modify_held(desk, pass, here, told),
        (Play::Hold, [Ends::Broadcast(sender, _), _]) => {
            let in_time = is_set_in_time(&told.by_this);
            let _ = desk.b_send(&RT, pass, sender, 1);
            return in_time;
        }
        (Play::AddForReader, [Ends::Watch(_, reader)]) => {
            let _ = desk.w_wait_for(&RT, pass, reader, |value| *value == 3);
        }
        (Play::End(case), _) => {
            let _ = desk.wait_call(&RT, pass, 0, case.waiting);
        }
        _ => return false,
    }
    true
}

/// Two closures add to the value, each once the other thread waits. Says whether it did.
fn add_for_reader(desk: &Desk<u64>, pass: &mut Pass<u64>, writer: &WTx) -> bool {
    let mut in_time = is_awaited_in_time(desk, 0);
    let _ = desk.w_send_modify(&RT, pass, writer, |value| {
        *value = value.wrapping_add(1);
    });
    in_time &= is_awaited_in_time(desk, 0);
    let _ = desk.w_send_if_modified(&RT, pass, writer, |value| {
        *value = value.wrapping_add(2);
        true
    });
    in_time
}

/// A call by the first sender of the same channel that changes nothing, and isn't refused.
fn count_beside(waiting: &ChanCall<u64>) -> ChanCall<u64> {
    match waiting {
        ChanCall::B(_) => ChanCall::B(BCall::ReceiverCount(0)),
        ChanCall::W(_) => ChanCall::W(WCall::ReceiverCount(0)),
    }
}

/// Makes three calls while another thread waits: one that is refused, one that isn't and ends no wait, and the one that ends it.
/// Says whether the thread waited before the first, right behind it, and before the last, and the first was refused.
fn end_wait(desk: &Desk<u64>, pass: &mut Pass<u64>, case: &Case) -> bool {
    let in_time = is_awaited_in_time(desk, 0);
    let refused = desk.call(&RT, pass, 0, case.waiting);
    let still = desk.is_awaited(&RT, 0) == Some(true);
    let _ = desk.call(&RT, pass, 0, count_beside(&case.waiting));
    let again = is_awaited_in_time(desk, 0);
    let _ = if case.by_wait_call {
        desk.wait_call(&RT, pass, 0, case.ending)
    } else {
        desk.call(&RT, pass, 0, case.ending)
    };
    in_time && still && again && refused == Err(DeskFault::Waits)
}

/// What this thread does meanwhile. Says whether the other one was seen to wait, or was met, each time before that.
fn play_here(
    desk: &Desk<u64>,
    pass: &mut Pass<u64>,
    ends: &[Ends],
    play: Play,
    told: &Told,
) -> bool {
    match (play, ends) {
        (Play::Add, [Ends::Watch(sender, _)]) => {
            add_thousand(desk, pass, sender);
            true
        }
        (Play::Receive, [Ends::Broadcast(sender, _)]) => {
            let in_time = is_awaited_in_time(desk, 0);
            let _ = desk.b_send(&RT, pass, sender, 5);
            in_time
        }
        (Play::Answer, [Ends::Broadcast(sender, _), Ends::Broadcast(_, receiver)]) => {
            ask_thousand(desk, pass, sender, receiver);
            true
        }
        (Play::Modify, [_, Ends::Watch(there, _)]) => {
            let in_time = is_set_in_time(&told.by_other);
            let _ = desk.w_send(&RT, pass, there, 6);
            told.by_this.store(true, Ordering::SeqCst);
            in_time
        }
        (Play::Hold, [_, Ends::Watch(writer, _)]) => {
            let _ = desk.w_send(&RT, pass, writer, 6);
            told.by_this.store(true, Ordering::SeqCst);
            true
        }
        (Play::AddForReader, [Ends::Watch(writer, _)]) => add_for_reader(desk, pass, writer),
        (Play::End(case), _) => end_wait(desk, pass, &case),
        _ => false,
    }
}

/// The play in another thread and in this one. The pass that was there, and what both say.
fn play_beside(
    desk: &Desk<u64>,
    mut first: Pass<u64>,
    second: &mut Pass<u64>,
    ends: &[Ends],
    play: Play,
) -> ((Pass<u64>, bool), bool) {
    let told = Told {
        by_other: AtomicBool::new(false),
        by_this: AtomicBool::new(false),
    };
    let there = || {
        let in_time = play_there(desk, &mut first, ends, play, &told);
        (first, in_time)
    };
    side_by_side(there, || play_here(desk, second, ends, play, &told))
}

/// The play by the two actors of a desk. Says whether all waits were as they should be.
pub fn plays(open: OfTwo, play: Play) -> (OfTwo, bool) {
    let OfTwo {
        desk,
        first,
        mut second,
        ends,
    } = open;
    let ((first, there), here) = play_beside(&desk, first, &mut second, &ends, play);
    let open = OfTwo {
        desk,
        first,
        second,
        ends,
    };
    (open, there && here)
}
