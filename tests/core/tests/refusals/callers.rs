//! Calls at a desk, each with one retry.

use crate::calls::{At, call_at, held};
use crate::met::{refused, say};
use proved::rw_desk::{Desk, DeskFault, Pass};
use proved::rw_world::{ChanCall, ChanReply};
use support::desks::{Hand, call_by, drop_hand};

/// Makes a call by a handle. At a refusal the pass is as before, and no closure was called.
pub fn ask(
    desk: &Desk<u64>,
    pass: &mut Pass<u64>,
    hand: &Hand,
    call: ChanCall<u64>,
) -> Result<ChanReply<u64>, DeskFault> {
    let before = held(pass);
    let called = call_by(desk, pass, hand, call);
    if called.reply != Err(DeskFault::NoMemory) {
        return called.reply;
    }
    refused(held(pass) == before && !called.was_called);
    call_by(desk, pass, hand, call).reply
}

/// Makes a call that names its handle by number. At a refusal the pass is as before.
fn ask_at(
    desk: &Desk<u64>,
    pass: &mut Pass<u64>,
    at: At,
    call: ChanCall<u64>,
) -> Result<ChanReply<u64>, DeskFault> {
    let before = held(pass);
    match call_at(desk, pass, at, call) {
        Err(DeskFault::NoMemory) => {
            refused(held(pass) == before);
            call_at(desk, pass, at, call)
        }
        answer => answer,
    }
}

/// Says the result of a call.
pub fn say_reply(answer: &Result<ChanReply<u64>, DeskFault>) {
    say!("  {answer:?}")
}

/// Makes a call that names its handle by number, and says its result.
pub fn say_call(desk: &Desk<u64>, pass: &mut Pass<u64>, at: At, call: ChanCall<u64>) {
    let answer = ask_at(desk, pass, at, call);
    say_reply(&answer)
}

/// Makes these calls by a handle, each with a pass of its own, and says their results.
pub fn ask_all(desk: &Desk<u64>, passes: &mut [Pass<u64>], hand: &Hand, calls: &[ChanCall<u64>]) {
    for (pass, call) in passes.iter_mut().zip(calls.iter()) {
        let answer = ask(desk, pass, hand, *call);
        say_reply(&answer);
    }
}

/// Drops a handle. At a refusal it comes back, and is dropped the next time.
pub fn ask_drop(
    desk: &Desk<u64>,
    pass: &mut Pass<u64>,
    hand: Hand,
) -> Result<ChanReply<u64>, DeskFault> {
    let (before, number) = (held(pass), hand.number());
    let dropped = match drop_hand(desk, pass, hand) {
        Err((DeskFault::NoMemory, hand)) => {
            refused(held(pass) == before && hand.number() == number);
            drop_hand(desk, pass, hand)
        }
        dropped => dropped,
    };
    match dropped {
        Ok(reply) => Ok(reply),
        Err((fault, _)) => Err(fault),
    }
}
