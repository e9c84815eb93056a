//! The pass over a run that counts for each receiver.
// From crates/rw_findings/src/totals/totalling.rt, with its contracts as comments. //+
use crate::shim::Vec; //+

//~ ghost use Rattle.std.specs.Prelude.{◌≡◌, ◌≤◌, IfOk, OnOk, None, Option, false, length};
//~ ghost use Rattle.rw_handles.specs.declared.table.TheConstants.{MOST_HANDLES};
//~ ghost use Rattle.rw_world.specs.Openings.{has_bad_capacity, refusal};
//~ ghost use Rattle.rw_world.specs.declared.opening.TheConstants.{MOST_CHANNELS};
//~ ghost use Rattle.rw_findings.specs.Totals.{AreTotals};
//~ ghost use Rattle.rw_findings.specs.Tallies.{HasRoom, HaveFewHandles, HaveRoom, made_in, opened_tallies};
//~ ghost use Rattle.rw_findings.specs.Tallies.{tally_of, with_channels, with_entry, with_receivers, with_totals};

use super::broadcast::BroadcastTally;
use super::tally::Tally;
use super::total::{Counts, Totals};
use super::watch::WatchTally;
use crate::source::rw_journal::Run;
use crate::source::rw_law::{Entry, NoMemory};
use crate::source::rw_world::{Spec, World, documented, machines, refusal_of};
use crate::shim::alloc::Global;

/// Counts what each receiver of a run received and missed, in the order of channels, then of receivers.
///
/// Each handle that was a receiver at some place has its totals, whether it was dropped or not. It passes once over the entries,
/// makes no call, and needs 64 bytes a handle.
pub fn totals_of<V: Copy>(alloc: Global, run: &Run<V>) -> Result<Vec<Totals>, NoMemory>
//~     ensures { IfOk result (λ totals. AreTotals run.now totals.items) }
{
    machines::<V>();
    documented::<V>();
    let mut tallies = open_tallies(alloc, run.specs())?;
    let mut place = 0;
    for entry in run.entries() {
        place += 1;
        count_entry(&mut tallies, entry, place)?;
    }
    let mut totals = Vec::new(alloc);
    push_all(&tallies, &mut totals)?;
    Ok(totals)
}

/// Returns the tallies of channels at their opening.
fn open_tallies<V: Copy>(alloc: Global, specs: &[Spec<V>]) -> Result<Vec<Tally>, NoMemory>
//~     requires { refusal specs.now ≡ None }
//~     ensures { IfOk result (λ tallies. tallies.items ≡ opened_tallies specs.now) }
{
    // The proof needs this call: it ensures that each capacity is one that a broadcast can have.
    let _refusal = refusal_of(specs);
    let mut tallies = Vec::with_capacity(alloc, specs.len())?;
    for spec in specs {
        let tally = tally_of(alloc, spec)?;
        tallies.push_reserved(tally);
    }
    Ok(tallies)
}

/// Returns the tally of a channel at its opening.
fn tally_of<V: Copy>(alloc: Global, spec: &Spec<V>) -> Result<Tally, NoMemory>
//~     requires { has_bad_capacity spec.now ≡ false }
//~     ensures { IfOk result (λ tally. tally ≡ tally_of spec.now) }
{
    match *spec {
        Spec::Broadcast(capacity) => Ok(Tally::Broadcast(BroadcastTally::open(alloc, capacity)?)),
        Spec::Watch(_) => Ok(Tally::Watch(WatchTally::open(alloc)?)),
    }
}

/// Counts an entry, which leads to this place, in the tally of its channel.
fn count_entry<V: Copy>(
    tallies: &mut [Tally],
    entry: &Entry<World<V>>,
    place: u64,
) -> Result<(), NoMemory>
//~     requires { HaveRoom tallies.old }
//~     ensures { OnOk result (tallies.new ≡ with_entry tallies.old entry.now place) }
{
    let channel = entry.call.channel as usize;
    if channel < tallies.len() {
        tallies[channel].count_call(&entry.call.call, &entry.reply, place)?;
    }
    Ok(())
}

/// Appends the totals of a receiver, if the handle ever was a receiver.
fn push(
    totals: &mut Vec<Totals>,
    channel: u32,
    receiver: u32,
    counts: Option<Counts>,
) -> Result<(), NoMemory>
//~     ensures { OnOk result (totals.new.items ≡ with_totals totals.old.items channel receiver counts) }
{
    if let Some(counts) = counts {
        totals.push(Totals {
            channel,
            receiver,
            counts,
        })?;
    }
    Ok(())
}

/// Appends the totals of all receivers.
fn push_all(tallies: &[Tally], totals: &mut Vec<Totals>) -> Result<(), NoMemory>
//~     requires few { length tallies.now ≤ MOST_CHANNELS }
//~     requires small { HaveFewHandles tallies.now }
//~     requires room { HaveRoom tallies.now }
//~     ensures { OnOk result (totals.new.items ≡ with_channels totals.old.items tallies.now (length tallies.now)) }
{
    for channel in 0..tallies.len() {
        push_receivers(&tallies[channel], channel as u32, totals)?;
    }
    Ok(())
}

/// Appends those of one channel.
fn push_receivers(tally: &Tally, channel: u32, totals: &mut Vec<Totals>) -> Result<(), NoMemory>
//~     requires small { made_in tally.now ≤ MOST_HANDLES }
//~     requires room { HasRoom tally.now }
//~     ensures { OnOk result (totals.new.items ≡ with_receivers totals.old.items tally.now channel (made_in tally.now)) }
{
    for receiver in 0..tally.made() {
        push(
            totals,
            channel,
            receiver as u32,
            tally.counts(receiver as u32),
        )?;
    }
    Ok(())
}
