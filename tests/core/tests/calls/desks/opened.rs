//! Opening desks of one actor, closing desks, and what their runs have.

use proved::Global;
use proved::rw_desk::{BRx, BTx, CloseFault, Desk, Ends, Pass, WRx, WTx};
use proved::rw_journal::Run;
use proved::rw_world::{ChanCall, ChanReply, Spec};

/// A desk of one actor, its pass, and the ends of its channels.
pub struct OfOne {
    pub desk: Desk<u64>,
    pub pass: Pass<u64>,
    pub ends: proved::Vec<Ends>,
}

/// The ends of the first channel, which is a broadcast.
pub fn broadcast_of(ends: &[Ends]) -> (&BTx, &BRx) {
    match ends {
        [Ends::Broadcast(sender, receiver), ..] => (sender, receiver),
        _ => panic!("no broadcast"),
    }
}

/// The ends of the last channel, which is a watch.
pub fn watch_of(ends: &[Ends]) -> (&WTx, &WRx) {
    match ends {
        [.., Ends::Watch(writer, reader)] => (writer, reader),
        _ => panic!("no watch"),
    }
}

/// A desk of one actor, its pass, and the ends of its channels.
pub fn open_one(specs: &[Spec<u64>]) -> OfOne {
    let (desk, mut passes, ends) = Desk::open(Global, specs, 1).unwrap();
    let pass = passes.pop().unwrap();
    OfOne { desk, pass, ends }
}

/// The run of a desk that closes with these passes.
pub fn run_of(desk: Desk<u64>, passes: proved::Vec<Pass<u64>>) -> Result<Run<u64>, CloseFault> {
    desk.close(Global, passes).map_err(|(fault, _, _)| fault)
}

/// The run of a desk of one actor, which closes.
pub fn run_of_one(open: OfOne) -> Result<Run<u64>, CloseFault> {
    run_of(open.desk, [open.pass].into_iter().collect())
}

/// How long the run is of a desk of one actor, which closes.
pub fn length_of_one(open: OfOne) -> Result<u64, CloseFault> {
    Ok(run_of_one(open)?.len())
}

/// A pass has kept these calls and replies.
pub fn has_kept(case: &str, pass: &Pass<u64>, wanted: &[(ChanCall<u64>, ChanReply<u64>)]) {
    let calls: Vec<_> = pass
        .kept()
        .iter()
        .map(|kept| (kept.call, kept.reply))
        .collect();
    assert_eq!(calls, wanted, "{case}");
}

/// Each entry's stamp and channel.
pub fn order(run: &Run<u64>) -> Vec<(u64, u32)> {
    run.entries()
        .iter()
        .map(|entry| (entry.stamp, entry.call.channel))
        .collect()
}
