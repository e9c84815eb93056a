//! Journals of channels: made of calls, merged into a run, and settled with the pass that made the same calls.

use crate::met::{TRIES, refused, say};
use crate::passes::record_all;
use crate::readings::SPECS;
use crate::refusing::paused;
use proved::rw_broadcast::BCall;
use proved::rw_desk::{CloseFault, Pass, compare, settle};
use proved::rw_journal::{MergeFault, Run, merge, merge_all};
use proved::rw_law::{Entry, NoMemory, Payload};
use proved::rw_watch::WCall;
use proved::rw_world::{Chan, ChanCall, OpenFault, Spec};
use proved::{Global, Vec};
use support::desks::{Parts, StampedCall, parts_of};

/// Calls of a broadcast by actor 0.
static SENT: [StampedCall<u64>; 4] = [
    (0, 1, ChanCall::B(BCall::Send(0, 4))),
    (0, 2, ChanCall::B(BCall::TryRecv(1))),
    (0, 3, ChanCall::B(BCall::Downgrade(0))),
    (0, 4, ChanCall::B(BCall::TryRecv(1))),
];

/// Calls of a watch by actor 1.
static STORED: [StampedCall<u64>; 3] = [
    (1, 1, ChanCall::W(WCall::Send(0, 8))),
    (1, 2, ChanCall::W(WCall::Changed(1))),
    (1, 3, ChanCall::W(WCall::Borrow(1))),
];

/// Returns the specs, which open, and the journals of their channels, whose memory isn't refused.
fn new_parts<V: Copy>(
    specs: &[Spec<V>],
    calls: &[&[StampedCall<V>]],
) -> Result<Parts<V>, OpenFault> {
    paused(|| parts_of(specs, calls))
}

/// How long a run is that was merged.
fn merged_length<V: Copy>(merged: Result<Run<V>, MergeFault>) -> Result<u64, MergeFault> {
    match merged {
        Ok(run) => Ok(run.len()),
        Err(fault) => Err(fault),
    }
}

/// How long the run is that journals of these calls merge to.
fn merged_once<V: Copy>(specs: &[Spec<V>], calls: &[&[StampedCall<V>]]) -> Result<u64, MergeFault> {
    match new_parts(specs, calls) {
        Ok((specs, journals)) => merged_length(merge(Global, specs, journals)),
        Err(_) => Err(MergeFault::NoMemory),
    }
}

/// The same, with one retry. At a refusal the journals are dropped, and the next time they are others.
fn merged<V: Copy>(specs: &[Spec<V>], calls: &[&[StampedCall<V>]]) -> Result<u64, MergeFault> {
    match merged_once(specs, calls) {
        Err(MergeFault::NoMemory) => {
            refused(true);
            merged_once(specs, calls)
        }
        answer => answer,
    }
}

/// How many entries there are in all.
fn entries_in<V: Copy>(journals: &[Vec<Entry<Chan<V>>>]) -> usize {
    let mut count: usize = 0;
    for journal in journals {
        count = count.saturating_add(journal.len());
    }
    count
}

/// How long the run of a copy of these specs is that these journals merge to.
fn merge_once<V: Copy>(
    specs: &[Spec<V>],
    journals: &[Vec<Entry<Chan<V>>>],
) -> Result<u64, MergeFault> {
    match Vec::from_slice(Global, specs) {
        Ok(specs) => merged_length(merge_all(Global, specs, journals)),
        Err(_) => Err(MergeFault::NoMemory),
    }
}

/// The same, with one retry. The journals are unchanged at a refusal.
fn merge_kept<V: Copy>(
    specs: &[Spec<V>],
    journals: &[Vec<Entry<Chan<V>>>],
) -> Result<u64, MergeFault> {
    let count = entries_in(journals);
    match merge_once(specs, journals) {
        Err(MergeFault::NoMemory) => {
            refused(entries_in(journals) == count);
            merge_once(specs, journals)
        }
        answer => answer,
    }
}

/// The run that the journal of these calls and one pass settle to. At a refusal specs and journal are dropped, and the receipts
/// stay.
fn settled<V: Payload>(
    specs: &[Spec<V>],
    calls: &[&[StampedCall<V>]],
    passes: &[Pass<V>],
) -> Result<Run<V>, CloseFault> {
    let receipts = receipts_of(passes);
    for _ in 0..TRIES {
        let Ok((specs, journals)) = new_parts(specs, calls) else {
            return Err(CloseFault::NoMemory);
        };
        match settle(Global, specs, journals, passes) {
            Err(CloseFault::NoMemory) => refused(receipts_of(passes) == receipts),
            answer => return answer,
        }
    }
    Err(CloseFault::NoMemory)
}

/// How many receipts the first of these passes has.
fn receipts_of<V: Copy>(passes: &[Pass<V>]) -> Option<usize> {
    passes.first().map(|pass| pass.kept().len())
}

/// Where the receipts of a pass and the entries of actor 0 differ first.
fn differs<V: Payload>(run: &Run<V>, pass: &Pass<V>) -> Option<u64> {
    compare(run, 0, pass.kept())
}

/// Says how long a run is that was merged.
fn say_merged(how: &str, length: Result<u64, MergeFault>) {
    match length {
        Ok(length) => say!("  {how} {length} entries"),
        Err(fault) => say!("  {fault:?}"),
    }
}

/// Plays journals that are merged, and are kept at a refusal.
fn play_kept<V: Copy>(specs: &[Spec<V>], calls: &[&[StampedCall<V>]]) {
    let Ok((specs, journals)) = new_parts(specs, calls) else {
        return say!("  no journals");
    };
    let kept = merge_kept(&specs, &journals);
    say_merged("kept, and merged to", kept)
}

/// Plays journals that are merged, both dropped at a refusal and kept.
fn play_merges<V: Copy>(specs: &[Spec<V>], calls: &[&[StampedCall<V>]]) {
    say_merged("merged to", merged(specs, calls));
    play_kept(specs, calls)
}

/// How long a run is, and where it and a pass differ first.
fn length_and_place<V: Payload>(run: Run<V>, pass: &Pass<V>) -> (u64, Option<u64>) {
    let at = differs(&run, pass);
    (run.len(), at)
}

/// Settles the calls of actor 0 with the pass that made them, and says where the two differ.
fn say_settled<V: Payload>(specs: &[Spec<V>; 1], calls: &[StampedCall<V>], passes: &[Pass<V>; 1]) {
    let [pass] = passes;
    match settled(specs, &[calls], passes) {
        Ok(run) => {
            let (length, at) = length_and_place(run, pass);
            say!("  settled: {length} entries, {at:?}")
        }
        Err(fault) => say!("  {fault:?}"),
    }
}

/// Plays a journal of these calls, which settles with the pass of actor 0.
fn play_settling<V: Payload>(specs: &[Spec<V>; 1], calls: &[StampedCall<V>]) {
    match record_all(&specs[0], calls) {
        Ok(pass) => {
            let passes = [pass];
            say_settled(specs, calls, &passes);
        }
        Err(NoMemory) => say!("  no receipts"),
    }
}

/// Plays journals of a broadcast and of a watch, and settles the first.
fn play_all<V: Payload>(specs: &[Spec<V>; 2], sent: &[StampedCall<V>], stored: &[StampedCall<V>]) {
    play_merges(specs, &[sent, stored]);
    play_settling(&[specs[0]], sent)
}

/// Plays all of these.
pub fn play() {
    say!("journals of channels");
    play_all(&SPECS, &SENT, &STORED)
}
