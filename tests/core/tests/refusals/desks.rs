//! Desks: opened, called by the numbers of channels and handles, and closed.

use crate::callers::say_call;
use crate::calls::At;
use crate::met::{refused, say};
use crate::readings::SPECS;
use proved::rw_broadcast::BCall;
use proved::rw_desk::{CloseFault, Desk, DeskOpenFault, Ends, Pass};
use proved::rw_journal::Run;
use proved::rw_watch::WCall;
use proved::rw_world::{ChanCall, OpenFault, Spec};
use proved::{Global, Vec};
use support::desks::{Hand, hands_of};

/// A desk, with a pass for each actor and the handles that each channel has from the beginning. It is opened with one retry.
pub fn new_desk(
    specs: &[Spec<u64>],
    actors: u32,
) -> Result<(Desk<u64>, Vec<Pass<u64>>, Vec<Ends>), DeskOpenFault> {
    match Desk::open(Global, specs, actors) {
        Err(DeskOpenFault::World(OpenFault::NoMemory)) => {
            refused(true);
            Desk::open(Global, specs, actors)
        }
        answer => answer,
    }
}

/// How many passes there are, and how many receipts they have.
fn counts_of(passes: &[Pass<u64>]) -> (usize, usize) {
    (
        passes.len(),
        passes.iter().map(|pass| pass.kept().len()).sum(),
    )
}

/// How long the run is of a close.
pub fn ended<D, P>(closed: Result<Run<u64>, (CloseFault, D, Vec<P>)>) -> Result<u64, CloseFault> {
    match closed {
        Ok(run) => Ok(run.len()),
        Err((fault, _, _)) => Err(fault),
    }
}

/// Closes a desk, with one retry. At a refusal the desk and the passes are returned, and it is closed again.
fn close(desk: Desk<u64>, passes: Vec<Pass<u64>>) -> Result<u64, CloseFault> {
    let before = counts_of(&passes);
    match desk.close(Global, passes) {
        Err((CloseFault::NoMemory, desk, passes)) => {
            refused(counts_of(&passes) == before);
            ended(desk.close(Global, passes))
        }
        closed => ended(closed),
    }
}

/// The sender and the receiver of a channel.
pub fn hands_in(ends: Option<Ends>) -> Option<(Hand, Hand)> {
    ends.map(hands_of)
}

/// Those of the last channel. The handles of the others are forgotten, and stay alive in their channels.
pub fn last_hands(mut ends: Vec<Ends>) -> Option<(Hand, Hand)> {
    let last = ends.pop();
    hands_in(last)
}

/// Says how long the run of a closed desk is, in which each actor's receipts are its entries.
pub fn say_end(closed: Result<u64, CloseFault>) {
    match closed {
        Ok(length) => say!("  closed with {length} entries"),
        Err(fault) => say!("  {fault:?}"),
    }
}

/// Closes a desk, and says how long its run is.
pub fn say_closed(desk: Desk<u64>, passes: Vec<Pass<u64>>) {
    say_end(close(desk, passes))
}

/// What is called by one pass on the broadcast, with calls that no handle of a desk makes among them. The last would wait.
static ON_BROADCAST: [ChanCall<u64>; 7] = [
    ChanCall::B(BCall::Downgrade(0)),
    ChanCall::B(BCall::CloneWeak(2)),
    ChanCall::B(BCall::Upgrade(3)),
    ChanCall::B(BCall::Send(4, 5)),
    ChanCall::B(BCall::TryRecv(1)),
    ChanCall::B(BCall::DropHandle(4)),
    ChanCall::B(BCall::Recv(1)),
];

/// Makes these calls.
fn call_broadcast(desk: &Desk<u64>, pass: &mut Pass<u64>) {
    for made in &ON_BROADCAST {
        say_call(desk, pass, At::Now(0), *made);
    }
}

/// The calls of a round on both channels, with their channels, by their numbers. The value is sent, received, stored and seen.
fn on_both(number: u32, value: u64) -> (u32, ChanCall<u64>) {
    match number {
        0 => (0, ChanCall::B(BCall::Send(0, value))),
        1 => (0, ChanCall::B(BCall::Recv(1))),
        2 => (1, ChanCall::W(WCall::Send(0, value))),
        3 => (1, ChanCall::W(WCall::Changed(1))),
        _ => (1, ChanCall::W(WCall::CloneSender(0))),
    }
}

/// Makes the five calls of a round, each of which may wait.
fn call_round(desk: &Desk<u64>, pass: &mut Pass<u64>, value: u64) {
    for number in 0..5 {
        let (channel, made) = on_both(number, value);
        say_call(desk, pass, At::Waiting(channel), made);
    }
}

/// Calls by one pass on both channels. There are so many that the pass and both books have to grow.
fn call_both(desk: &Desk<u64>, pass: &mut Pass<u64>) {
    for value in 10..16 {
        call_round(desk, pass, value);
    }
}

/// Calls by two passes on both channels, and astray.
fn call_all(desk: &Desk<u64>, passes: &mut [Pass<u64>]) {
    let [first, second] = passes else {
        return say!("  not two passes");
    };
    call_broadcast(desk, first);
    call_both(desk, second);
    let astray = ChanCall::W(WCall::Borrow(1));
    say_call(desk, second, At::Now(0), astray)
}

/// Plays a desk of two actors.
fn play_desk() {
    let Ok((desk, mut passes, _ends)) = new_desk(&SPECS, 2) else {
        return say!("  isn't opened");
    };
    call_all(&desk, &mut passes);
    say_closed(desk, passes);
}

/// Plays all of these.
pub fn play() {
    say!("a desk");
    play_desk()
}
