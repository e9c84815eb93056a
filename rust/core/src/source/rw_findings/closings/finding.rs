//! The pass over a run that finds its closings.
// From crates/rw_findings/src/closings/finding.rt, with its contracts as comments. //+
use crate::shim::Vec; //+

//~ ghost use Rattle.std.specs.Prelude.{◌≡◌, ◌≤◌, ◌<◌, [], IfOk, OnOk, Option, length};
//~ ghost use Rattle.rw_handles.specs.declared.table.TheConstants.{MOST_HANDLES};
//~ ghost use Rattle.rw_world.specs.declared.opening.TheConstants.{MOST_CHANNELS};
//~ ghost use Rattle.rw_findings.specs.Closings.{AreClosings, got_by, told_by};
//~ ghost use Rattle.rw_findings.specs.LateReaders.{after_entry, HasRoom, HaveFewHandles, HaveRoom, opened};
//~ ghost use Rattle.rw_findings.specs.LateReaders.{with_all_readers, with_closings, with_entry, with_readers};

use super::closed_channel::ClosedChannel;
use super::closing::{Closing, Closings, LateReader};
use crate::source::rw_broadcast::{BCall, BReply};
use crate::source::rw_journal::Run;
use crate::source::rw_law::{Entry, NoMemory, Reversible};
use crate::source::rw_navigator::{Visitor, closed_at};
use crate::source::rw_watch::{WCall, WReply};
use crate::source::rw_world::{ChanCall, ChanReply, Spec, World, documented, machines};
use crate::shim::alloc::Global;

/// Finds the closings of a run, by channel, and the receivers that were there then, by channel, then by receiver.
///
/// A world goes over the run once, and is asked at each entry whether the entry's channel has a sender.
pub fn closings_of<V: Copy>(alloc: Global, run: &Run<V>) -> Result<Closings, NoMemory>
//~     ensures { IfOk result (λ closings. AreClosings run.now closings.channels.items closings.readers.items) }
{
    machines::<V>();
    documented::<V>();
    let mut closed = all_open(alloc, run.specs())?;
    let mut visitor = Visitor::open(alloc, run)?;
    let mut place = 0;
    for entry in run.entries() {
        place += 1;
        visitor.advance(run);
        follow_entry(alloc, &mut closed, entry, visitor.state(), place)?;
    }
    listed(alloc, &closed)
}

/// Returns the channels at their opening: none is closed.
fn all_open<V: Copy>(
    alloc: Global,
    specs: &[Spec<V>],
) -> Result<Vec<Option<ClosedChannel>>, NoMemory>
//~     ensures { IfOk result (λ closed. closed.items ≡ opened specs.now) }
{
    let mut closed = Vec::with_capacity(alloc, specs.len())?;
    for _spec in specs {
        closed.push_reserved(None);
    }
    Ok(closed)
}

/// Returns the receiver that a call received a value with, or was told of a change with.
fn got_by<V: Copy>(call: &ChanCall<V>, reply: &ChanReply<V>) -> Option<u32>
//~     ensures { result ≡ got_by call.now reply.now }
{
    match (*call, *reply) {
        (
            ChanCall::B(BCall::TryRecv(handle) | BCall::Recv(handle)),
            ChanReply::B(BReply::Value(_)),
        ) => Some(handle),
        (ChanCall::W(WCall::Changed(handle)), ChanReply::W(WReply::Done)) => Some(handle),
        _ => None,
    }
}

/// Returns the receiver that a call told that the channel is closed.
fn told_by<V: Copy>(call: &ChanCall<V>, reply: &ChanReply<V>) -> Option<u32>
//~     ensures { result ≡ told_by call.now reply.now }
{
    match (*call, *reply) {
        (ChanCall::B(BCall::TryRecv(handle) | BCall::Recv(handle)), ChanReply::B(BReply::Closed)) =>
            Some(handle),
        (
            ChanCall::W(WCall::Changed(handle) | WCall::HasChanged(handle)),
            ChanReply::W(WReply::Closed),
        ) => Some(handle),
        _ => None,
    }
}

/// Follows an entry, which leads to this place, where this is the world.
fn follow_entry<V: Copy>(
    alloc: Global,
    closed: &mut [Option<ClosedChannel>],
    entry: &Entry<World<V>>,
    world: &World<V>,
    place: u64,
) -> Result<(), NoMemory>
//~     requires { HaveRoom closed.old }
//~     ensures { OnOk result (closed.new ≡ with_entry (⟦<World<V> as Reversible>⟧.shown world.now) closed.old entry.now place) }
{
    let channel = entry.call.channel;
    if (channel as usize) < closed.len() {
        follow_on_channel(alloc, &mut closed[channel as usize], entry, world, place)?;
    }
    Ok(())
}

/// Follows it on its channel.
fn follow_on_channel<V: Copy>(
    alloc: Global,
    closed: &mut Option<ClosedChannel>,
    entry: &Entry<World<V>>,
    world: &World<V>,
    place: u64,
) -> Result<(), NoMemory>
//~     requires { HasRoom closed.old }
//~     ensures { OnOk result (closed.new ≡ after_entry (⟦<World<V> as Reversible>⟧.shown world.now) entry.now place closed.old) }
{
    let channel = u64::from(entry.call.channel);
    match closed {
        Some(closed) => {
            closed.receive(got_by(&entry.call.call, &entry.reply));
            closed.tell(told_by(&entry.call.call, &entry.reply), place);
        }
        None => {
            if let Some(true) = closed_at(world, channel) {
                *closed = Some(ClosedChannel::now(alloc, world, channel, place)?);
            }
        }
    }
    Ok(())
}

/// Lists the closings of all channels, and the receivers that were there.
fn listed(alloc: Global, closed: &[Option<ClosedChannel>]) -> Result<Closings, NoMemory>
//~     requires few { length closed.now ≤ MOST_CHANNELS }
//~     requires small { HaveFewHandles closed.now }
//~     ensures channels { IfOk result (λ closings. closings.channels.items ≡ with_closings [] closed.now (length closed.now)) }
//~     ensures readers { IfOk result (λ closings. closings.readers.items ≡ with_all_readers [] closed.now (length closed.now)) }
{
    let mut channels = Vec::new(alloc);
    push_closings(closed, &mut channels)?;
    let mut readers = Vec::new(alloc);
    push_readers(closed, &mut readers)?;
    Ok(Closings { channels, readers })
}

/// Appends the closings of all channels.
fn push_closings(
    closed: &[Option<ClosedChannel>],
    closings: &mut Vec<Closing>,
) -> Result<(), NoMemory>
//~     requires { length closed.now ≤ MOST_CHANNELS }
//~     ensures { OnOk result (closings.new.items ≡ with_closings closings.old.items closed.now (length closed.now)) }
{
    for channel in 0..closed.len() {
        if let Some(closed) = &closed[channel] {
            closings.push(Closing {
                channel: channel as u32,
                place: closed.place(),
            })?;
        }
    }
    Ok(())
}

/// Appends the receivers that were there where their channels closed.
fn push_readers(
    closed: &[Option<ClosedChannel>],
    readers: &mut Vec<LateReader>,
) -> Result<(), NoMemory>
//~     requires few { length closed.now ≤ MOST_CHANNELS }
//~     requires small { HaveFewHandles closed.now }
//~     ensures { OnOk result (readers.new.items ≡ with_all_readers readers.old.items closed.now (length closed.now)) }
{
    for channel in 0..closed.len() {
        if let Some(closed) = &closed[channel] {
            push_readers_of(closed, channel as u32, readers)?;
        }
    }
    Ok(())
}

/// Appends those of one channel.
fn push_readers_of(
    closed: &ClosedChannel,
    channel: u32,
    readers: &mut Vec<LateReader>,
) -> Result<(), NoMemory>
//~     requires { length closed.now.readers ≤ MOST_HANDLES }
//~     ensures { OnOk result (readers.new.items ≡ with_readers readers.old.items closed.now channel (length closed.now.readers)) }
{
    for receiver in 0..closed.made() {
        if let Some(reader) = closed.reader(receiver as u32) {
            readers.push(LateReader {
                channel,
                receiver: receiver as u32,
                told: reader.told,
                read_on: reader.read_on,
            })?;
        }
    }
    Ok(())
}
