//! Threads that wait, and the calls of another thread that wake them.
//!
//! Each is seen to wait before the call that ends its wait. So if that call wakes nobody, its test doesn't end.

use super::beside::{Case, Play, plays};
use super::opened::has_kept;
use super::shared::open_two;
use crate::flags::is_awaited_in_time;
use proved::Global;
use proved::RT;
use proved::rw_broadcast::{BCall, BReply};
use proved::rw_desk::{Desk, Pass};
use proved::rw_watch::{WCall, WReply};
use proved::rw_world::{ChanCall, ChanReply, Spec};
use support::side_by_side;

/// What ends a wait for a value of a broadcast, and what the thread that waits is answered.
static RECEIVED: [(&str, BCall<u64>, BReply<u64>); 3] = [
    ("a send", BCall::Send(0, 5), BReply::Value(5)),
    (
        "the last sender's drop",
        BCall::DropHandle(0),
        BReply::Closed,
    ),
    ("its receiver's drop", BCall::DropHandle(1), BReply::Gone),
];

/// The same of a wait for a change of a watch.
static CHANGED: [(&str, WCall<u64>, WReply<u64>); 6] = [
    ("a send", WCall::Send(0, 5), WReply::Done),
    ("a replacing send", WCall::SendReplace(0, 5), WReply::Done),
    (
        "a modification",
        WCall::Modify {
            told: true,
            handle: 0,
            value: 5,
        },
        WReply::Done,
    ),
    ("a mark", WCall::MarkChanged(1), WReply::Done),
    (
        "the last sender's drop",
        WCall::DropHandle(0),
        WReply::Closed,
    ),
    ("its receiver's drop", WCall::DropHandle(1), WReply::Gone),
];

/// The same of a sender's wait for the end of the receivers of a watch.
static LEFT: [(&str, WCall<u64>, WReply<u64>); 2] = [
    (
        "the last receiver's drop",
        WCall::DropHandle(1),
        WReply::Done,
    ),
    ("its sender's drop", WCall::DropHandle(0), WReply::Gone),
];

/// At a desk of its own, the call of a case wakes the thread, which waits before and not behind it, and whose wait ends with this
/// reply.
fn ends_alone(name: &str, case: &Case, reply: ChanReply<u64>) {
    let open = open_two(&[case.spec]);
    let (open, seen) = plays(open, Play::End(*case));
    let waits = open.desk.is_awaited(&RT, 0) == Some(true);
    has_kept(name, &open.first, &[(case.waiting, reply)]);
    assert_eq!([seen, waits], [true, false], "{name}");
}

/// The call wakes the thread, whether it is made by `call` or by `wait_call`.
fn wakes(name: &str, case: Case, reply: ChanReply<u64>) {
    for by_wait_call in [false, true] {
        let case = Case {
            by_wait_call,
            ..case
        };
        ends_alone(name, &case, reply);
    }
}

#[test]
fn calls_that_end_a_receive() {
    for (name, ending, reply) in &RECEIVED {
        let case = Case {
            spec: Spec::Broadcast(2),
            waiting: ChanCall::B(BCall::Recv(1)),
            ending: ChanCall::B(*ending),
            by_wait_call: false,
        };
        wakes(name, case, ChanReply::B(*reply));
    }
}

/// A call of a watch that waits, and the call that ends the wait.
fn of_watch(waiting: WCall<u64>, ending: WCall<u64>) -> Case {
    Case {
        spec: Spec::Watch(0),
        waiting: ChanCall::W(waiting),
        ending: ChanCall::W(ending),
        by_wait_call: false,
    }
}

#[test]
fn calls_that_end_a_wait_for_a_change() {
    for (name, ending, reply) in &CHANGED {
        let case = of_watch(WCall::Changed(1), *ending);
        wakes(name, case, ChanReply::W(*reply));
    }
}

#[test]
fn calls_that_end_a_wait_for_the_receivers() {
    for (name, ending, reply) in &LEFT {
        let case = of_watch(WCall::AwaitClosed(0), *ending);
        wakes(name, case, ChanReply::W(*reply));
    }
}

/// How many values two threads wait for.
const VALUES: u64 = 200;

/// Waits for each value of channel 0, and sends it on channel 1, until channel 0 is closed.
fn answer_all(desk: &Desk<u64>, mut pass: Pass<u64>, receiver: u32) -> Pass<u64> {
    for _ in 0..=VALUES {
        let received = desk.wait_call(&RT, &mut pass, 0, ChanCall::B(BCall::Recv(receiver)));
        let Ok(ChanReply::B(BReply::Value(value))) = received else {
            return pass;
        };
        let _ = desk.call(&RT, &mut pass, 1, ChanCall::B(BCall::Send(0, value)));
    }
    pass
}

/// Sends the values, each once a thread waits for it and both have answered the one before. Says whether one did each time.
fn ask_all(desk: &Desk<u64>, pass: &mut Pass<u64>) -> bool {
    let answer = ChanCall::B(BCall::Recv(1));
    let mut in_time = true;
    for value in 0..VALUES {
        in_time &= is_awaited_in_time(desk, 0);
        let _ = desk.call(&RT, pass, 0, ChanCall::B(BCall::Send(0, value)));
        let _ = desk.wait_call(&RT, pass, 1, answer);
        let _ = desk.wait_call(&RT, pass, 1, answer);
    }
    in_time
}

/// Two threads that wait for each value, and this one, which sends them. The passes of the two, and whether one waited each time.
///
/// Of one that isn't woken with the other no answer comes, and this thread then waits for it without an end.
fn ask_beside(
    desk: &Desk<u64>,
    first: Pass<u64>,
    second: Pass<u64>,
    third: &mut Pass<u64>,
) -> (Pass<u64>, Pass<u64>, bool) {
    let both = || {
        side_by_side(
            || answer_all(desk, first, 1),
            || answer_all(desk, second, 2),
        )
    };
    let ((first, second), in_time) = side_by_side(both, || {
        let in_time = ask_all(desk, third);
        let _ = desk.call(&RT, third, 0, ChanCall::B(BCall::DropHandle(0)));
        in_time
    });
    (first, second, in_time)
}

/// Makes the second receiver of channel 0, and lets two threads wait there. How many calls each made, and whether one waited each
/// time.
fn asked(desk: &Desk<u64>, mut passes: proved::Vec<Pass<u64>>) -> (usize, usize, bool) {
    let mut third = passes.pop().unwrap();
    let (second, first) = (passes.pop().unwrap(), passes.pop().unwrap());
    let _ = desk.call(&RT, &mut third, 0, ChanCall::B(BCall::Subscribe(0)));
    let (first, second, in_time) = ask_beside(desk, first, second, &mut third);
    (first.kept().len(), second.kept().len(), in_time)
}

#[test]
fn two_threads_wait_on_one_channel() {
    let (desk, passes, _ends) = Desk::open(Global, &[Spec::Broadcast(2); 2], 3).unwrap();
    let asked = asked(&desk, passes);
    // A receive and a send for each value, and the receive that finds the channel closed.
    let calls = 2 * VALUES as usize + 1;
    assert_eq!(asked, (calls, calls, true));
}
