//! What is played with a desk's locks.

use super::rw_desk::{Desk, DeskFault, Pass};
use crate::orders::{Play, call};
use crate::played::{RT, boxed};
use crate::shim::alloc::Global;
use crate::source::rw_broadcast::{BCall, BReply};
use crate::source::rw_watch::{WCall, WReply};
use crate::source::rw_world::{ChanCall, ChanReply, Spec};
use std::sync::{Arc, Mutex};

/// What an actor asks for, and the reply that it has to get. It waits where the reply would.
type Line = (ChanCall<u64>, ChanReply<u64>);

/// Plays a desk of one channel, with a thread for each list of calls. Before that, the first actor makes calls.
fn desk_of(spec: Spec<u64>, before: &[ChanCall<u64>], actors: Vec<Vec<Line>>) -> Play {
    let (desk, passes, _) = Desk::open(Global, &[spec], actors.len() as u32).unwrap();
    let mut passes: Vec<_> = passes.into_iter().collect();
    for asked in before {
        desk.call(&RT, &mut passes[0], 0, *asked).unwrap();
    }
    let calls = before.len() + actors.iter().map(Vec::len).sum::<usize>();
    let desk = Arc::new(desk);
    let back = Arc::new(Mutex::new(Vec::new()));
    let of_actor = |(pass, lines): (_, Vec<Line>)| {
        let (desk, back) = (desk.clone(), back.clone());
        boxed(move || {
            let pass = called(&desk, pass, &lines);
            back.lock().unwrap().push(pass);
        })
    };
    let threads = passes.into_iter().zip(actors).map(of_actor).collect();
    let end = move || {
        let desk = Arc::into_inner(desk).unwrap();
        let passes = back.lock().unwrap().drain(..).collect();
        let Ok(run) = desk.close(Global, passes) else {
            panic!("the desk doesn't close");
        };
        assert_eq!(run.len(), calls as u64);
    };
    Play {
        threads,
        end: Box::new(end),
    }
}

/// Makes these calls, and waits for their replies.
fn called(desk: &Desk<u64>, mut pass: Pass<u64>, lines: &[Line]) -> Pass<u64> {
    for (asked, wanted) in lines {
        call(|| {
            let reply = desk.wait_call(&RT, &mut pass, 0, *asked);
            assert_eq!(reply, Ok(*wanted));
            pass.stamp()
        });
    }
    pass
}

const fn send(value: u64, receivers: u64) -> Line {
    (
        ChanCall::B(BCall::Send(0, value)),
        ChanReply::B(BReply::Sent(receivers)),
    )
}

const fn receive(receiver: u32, value: u64) -> Line {
    (
        ChanCall::B(BCall::Recv(receiver)),
        ChanReply::B(BReply::Value(value)),
    )
}

/// A call that isn't of a value, and its reply.
const fn other(asked: BCall<u64>, reply: BReply<u64>) -> Line {
    (ChanCall::B(asked), ChanReply::B(reply))
}

/// A receiver waits for a value, and then for the end of the sender.
pub fn one_waits() -> Play {
    let closed = other(BCall::Recv(1), BReply::Closed);
    let dropped = other(BCall::DropHandle(0), BReply::Dropped);
    let actors = vec![vec![receive(1, 5), closed], vec![send(5, 1), dropped]];
    desk_of(Spec::Broadcast(4), &[], actors)
}

/// Two receivers wait for one value.
pub fn two_wait() -> Play {
    let subscribe = ChanCall::B(BCall::Subscribe(0));
    let actors = vec![vec![receive(1, 5)], vec![receive(2, 5)], vec![send(5, 2)]];
    desk_of(Spec::Broadcast(4), &[subscribe], actors)
}

/// A receiver of a watch waits for a change, beside a call that is refused.
pub fn one_waits_beside_a_refused_call() -> Play {
    let of_watch = |asked, reply| (ChanCall::W(asked), ChanReply::W(reply));
    let waits = vec![of_watch(WCall::Changed(1), WReply::Done)];
    let refused = of_watch(WCall::Send(7, 5), WReply::Unknown);
    let sends = vec![refused, of_watch(WCall::Send(0, 5), WReply::Stored)];
    desk_of(Spec::Watch(0), &[], vec![waits, sends])
}

/// A receiver waits beside two that call.
pub fn one_waits_beside_two() -> Play {
    let clone = ChanCall::B(BCall::CloneSender(0));
    let dropped = other(BCall::DropHandle(2), BReply::Dropped);
    let actors = vec![vec![receive(1, 5)], vec![send(5, 1)], vec![dropped]];
    desk_of(Spec::Broadcast(4), &[clone], actors)
}

/// A call and a call that may wait, where the journal is full.
pub fn calls_when_full() -> Play {
    let (desk, mut passes, _) = Desk::open(Global, &[Spec::<u64>::Broadcast(2)], 1).unwrap();
    let mut pass = passes.pop().unwrap();
    // No stamp is above it.
    pass.heed(u64::MAX);
    let act = move || {
        for may_wait in [false, true] {
            call(|| {
                let asked = ChanCall::B(BCall::Recv(1));
                let answer = if may_wait {
                    desk.wait_call(&RT, &mut pass, 0, asked)
                } else {
                    desk.call(&RT, &mut pass, 0, asked)
                };
                assert_eq!(answer, Err(DeskFault::JournalFull));
                0
            });
        }
    };
    Play {
        threads: vec![boxed(act)],
        end: Box::new(|| ()),
    }
}
