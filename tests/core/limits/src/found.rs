//! What is found in runs.

use crate::recorded::{SENT, run_of, send};
use proved::Global;
use proved::rw_broadcast::{BCall, BReply};
use proved::rw_findings::{
    LossEnd, Measure, Stretches, closings_of, last_receipts_of, lives_of, losses_of, peaks_of,
    starts_of, totals_of, traffic_of, values_between, values_of,
};
use proved::rw_journal::{Run, RunDraft};
use proved::rw_navigator::{Cond, HitIndex, Navigator};
use proved::rw_recording::Findings;
use proved::rw_text::write;
use proved::rw_world::{ChanCall, ChanReply, RowCall, Spec};

/// A run of these calls on a broadcast of one value.
fn run(calls: impl Iterator<Item = (ChanCall<u64>, ChanReply<u64>)>) -> Run<u64> {
    let mut draft = RunDraft::open(Global, &[Spec::Broadcast(1)]).unwrap();
    for (stamp, (call, reply)) in (1..).zip(calls) {
        draft
            .push(0, stamp, RowCall { channel: 0, call }, reply)
            .unwrap();
    }
    draft.finish()
}

const fn of(call: BCall<u64>, reply: BReply<u64>) -> (ChanCall<u64>, ChanReply<u64>) {
    (ChanCall::B(call), ChanReply::B(reply))
}

/// A send, and then as often one that overwrites its value, of which the receiver is told.
pub fn losses(size: u64) -> bool {
    let told = [(send(1), SENT), of(BCall::TryRecv(1), BReply::Lagged(1))];
    let calls = (0..size).flat_map(|_| told);
    let run = run([(send(0), SENT)].into_iter().chain(calls));
    let losses = losses_of(Global, &run).unwrap();
    let last = losses.last().unwrap();
    let is_last = (last.from, last.lost, last.end) == (2 * size, 1, LossEnd::Told(2 * size + 1));
    losses.len() as u64 == size && is_last
}

/// Where the same losses begin: each has one value, and nothing was ever received.
pub fn starts(size: u64) -> bool {
    let told = [(send(1), SENT), of(BCall::TryRecv(1), BReply::Lagged(1))];
    let calls = (0..size).flat_map(|_| told);
    let run = run([(send(0), SENT)].into_iter().chain(calls));
    let losses = losses_of(Global, &run).unwrap();
    let starts = starts_of(Global, &run, &losses).unwrap();
    let firsts = starts.iter().map(|start| (start.first, start.received));
    firsts.eq((0..size).map(|number| (number, 0)))
}

/// `size` receivers are created beside receiver 1.
fn created(size: u64) -> impl Iterator<Item = (ChanCall<u64>, ChanReply<u64>)> {
    (0..size).map(|number| of(BCall::Subscribe(0), BReply::New(number as u32 + 2)))
}

/// The receivers, and then the end of the sender.
fn closed(size: u64) -> Run<u64> {
    run(created(size).chain([of(BCall::DropHandle(0), BReply::Dropped)]))
}

pub fn late_readers(size: u64) -> bool {
    let closings = closings_of(Global, &closed(size)).unwrap();
    let last = closings.readers.last().unwrap();
    let counts = (
        closings.channels.len() as u64,
        closings.readers.len() as u64,
    );
    counts == (1, size + 1) && u64::from(last.receiver) == size + 1
}

pub fn totals(size: u64) -> bool {
    totals_of(Global, &closed(size)).unwrap().len() as u64 == size + 1
}

/// Receiver 1 and `size` others receive one value each.
pub fn receipts(size: u64) -> bool {
    let receives =
        (1..size + 2).map(|receiver| of(BCall::TryRecv(receiver as u32), BReply::Value(7)));
    let sent = of(BCall::Send(0, 7), BReply::Sent(size + 1));
    let run = run(created(size).chain([sent]).chain(receives));
    let totals = totals_of(Global, &run).unwrap();
    let places = last_receipts_of(Global, &run, &totals).unwrap();
    places.iter().copied().eq(size + 2..2 * size + 3)
}

pub fn lives(size: u64) -> bool {
    let lives = lives_of(Global, &run(created(size)), 0).unwrap();
    lives.len() as u64 == size + 2
}

pub fn values(size: u64) -> bool {
    let values = values_of(Global, &run_of(size).unwrap(), 0).unwrap();
    let between = values_between(&values, 1, size);
    (values.len() as u64, between) == (size, size - 1)
}

/// The same values, with the lives of the handles.
pub fn traffic(size: u64) -> bool {
    let found = traffic_of(Global, &run_of(size).unwrap(), &[true]).unwrap();
    let channel = found[0].as_ref().unwrap();
    (channel.values().len() as u64, channel.lives().len()) == (size, 2)
}

pub fn peaks(size: u64) -> bool {
    let stretches = Stretches {
        from: 1,
        each: 1,
        count: size,
    };
    let run = run_of(size).unwrap();
    let peaks = peaks_of(Global, &run, 0, Measure::Unread, stretches).unwrap();
    // Each send leaves one value more to receive.
    peaks.row(1).iter().copied().eq(1..=size)
}

pub fn findings(size: u64) -> bool {
    let mut text = proved::Vec::new(Global);
    write(&run_of(size).unwrap(), &mut text).unwrap();
    let findings = Findings::read(Global, &text).unwrap();
    (
        findings.entries(),
        findings.losses().len(),
        findings.totals().len(),
    ) == (size + 1, 1, 2)
}

pub fn hits(size: u64) -> bool {
    let run = run_of(size).unwrap();
    let navigator = Navigator::open(Global, run.start(Global).unwrap(), run.entries()).unwrap();
    let index = HitIndex::build(Global, &navigator, &Cond::Channel(0)).unwrap();
    (index.before(size + 1), index.after(size)) == (Some(size), None)
}
