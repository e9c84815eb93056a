//! The pass over a run that finds its losses.
// From crates/rw_findings/src/losses/finding.rt, with its contracts as comments. //+
use crate::shim::Vec; //+

//~ ghost use Rattle.std.specs.Prelude.{◌≡◌, ◌≤◌, ◌+◌, IfOk, OnOk, None, false, length, option_map};
//~ ghost use Rattle.rw_handles.specs.declared.table.TheConstants.{MOST_HANDLES};
//~ ghost use Rattle.rw_world.specs.Openings.{has_bad_capacity, refusal};
//~ ghost use Rattle.rw_world.specs.declared.opening.TheConstants.{MOST_CHANNELS};
//~ ghost use Rattle.rw_findings.specs.Losses.{AreLosses};
//~ ghost use Rattle.rw_findings.specs.LossTracks.{HasFewHandles, loss_of_entry, opened_tracks, track_of};
//~ ghost use Rattle.rw_findings.specs.LossTracks.{with_call, with_entry, with_loss, with_open, with_open_of};

use super::loss::{Loss, LossEnd};
use super::track::Track;
use crate::source::rw_broadcast::{BCall, BReply};
use crate::source::rw_journal::Run;
use crate::source::rw_law::{Entry, NoMemory};
use crate::source::rw_world::{ChanCall, ChanReply, Spec, World, documented, machines, refusal_of};
use crate::shim::alloc::Global;

/// Finds all losses of a run, in the order of the places at which they began, then of channels, then of receivers.
///
/// It passes once over the entries and makes no call. Besides the losses it needs 8 bytes a send, and 16 a handle.
pub fn losses_of<V: Copy>(alloc: Global, run: &Run<V>) -> Result<Vec<Loss>, NoMemory>
//~     ensures { IfOk result (λ losses. AreLosses run.now losses.items) }
{
    machines::<V>();
    documented::<V>();
    let mut tracks = open_tracks(alloc, run.specs())?;
    let mut losses = Vec::new(alloc);
    let mut place = 0;
    for entry in run.entries() {
        place += 1;
        push(&mut losses, loss_of_entry(&tracks, entry, place))?;
        follow_entry(&mut tracks, entry, place)?;
    }
    push_open(&tracks, &mut losses)?;
    losses.sort_unstable_by_key(|loss| loss.order());
    Ok(losses)
}

/// Returns the tracks of channels at their opening. A watch has none.
fn open_tracks<V: Copy>(alloc: Global, specs: &[Spec<V>]) -> Result<Vec<Option<Track>>, NoMemory>
//~     requires { refusal specs.now ≡ None }
//~     ensures { IfOk result (λ tracks. tracks.items ≡ opened_tracks specs.now) }
{
    // The proof needs this call: it ensures that each capacity is one that a broadcast can have.
    let _refusal = refusal_of(specs);
    let mut tracks = Vec::with_capacity(alloc, specs.len())?;
    for spec in specs {
        let track = track_of(alloc, spec)?;
        tracks.push_reserved(track);
    }
    Ok(tracks)
}

/// Returns the track of a channel at its opening, if it is a broadcast.
fn track_of<V: Copy>(alloc: Global, spec: &Spec<V>) -> Result<Option<Track>, NoMemory>
//~     requires { has_bad_capacity spec.now ≡ false }
//~     ensures { IfOk result (λ track. track ≡ track_of spec.now) }
{
    match *spec {
        Spec::Broadcast(capacity) => Ok(Some(Track::open(alloc, capacity)?)),
        Spec::Watch(_) => Ok(None),
    }
}

/// Returns the loss that ends by an entry, which leads to this place.
fn loss_of_entry<V: Copy>(
    tracks: &[Option<Track>],
    entry: &Entry<World<V>>,
    place: u64,
) -> Option<Loss>
//~     ensures { result ≡ loss_of_entry tracks.now entry.now place }
{
    let channel = entry.call.channel;
    match (entry.call.call, entry.reply) {
        (ChanCall::B(call), ChanReply::B(reply)) => {
            let track = tracks.get(channel as usize)?.as_ref()?;
            track.loss_by(channel, &call, &reply, place)
        }
        _ => None,
    }
}

/// Follows an entry, which leads to this place, on the track of its channel.
fn follow_entry<V: Copy>(
    tracks: &mut [Option<Track>],
    entry: &Entry<World<V>>,
    place: u64,
) -> Result<(), NoMemory>
//~     ensures { OnOk result (tracks.new ≡ with_entry tracks.old entry.now place) }
{
    let channel = entry.call.channel as usize;
    if let (ChanCall::B(call), ChanReply::B(reply)) = (entry.call.call, entry.reply) {
        if channel < tracks.len() {
            follow_call(&mut tracks[channel], &call, &reply, place)?;
        }
    }
    Ok(())
}

/// Follows a call on the track of its channel, if it has one.
fn follow_call<V: Copy>(
    track: &mut Option<Track>,
    call: &BCall<V>,
    reply: &BReply<V>,
    place: u64,
) -> Result<(), NoMemory>
//~     ensures { OnOk result (track.new ≡ option_map (λ t. with_call t call.now reply.now place) track.old) }
{
    match track {
        Some(track) => track.follow(call, reply, place),
        None => Ok(()),
    }
}

/// Appends a loss, if there is one.
fn push(losses: &mut Vec<Loss>, loss: Option<Loss>) -> Result<(), NoMemory>
//~     ensures { OnOk result (losses.new.items ≡ with_loss losses.old.items loss) }
{
    if let Some(loss) = loss {
        losses.push(loss)?;
    }
    Ok(())
}

/// Appends the losses of the receivers that lag, which have no end.
fn push_open(tracks: &[Option<Track>], losses: &mut Vec<Loss>) -> Result<(), NoMemory>
//~     requires few { length tracks.now ≤ MOST_CHANNELS }
//~     requires small { HasFewHandles tracks.now }
//~     ensures { OnOk result (losses.new.items ≡ with_open losses.old.items tracks.now (length tracks.now)) }
{
    for channel in 0..tracks.len() {
        if let Some(track) = &tracks[channel] {
            push_open_of(track, channel as u32, losses)?;
        }
    }
    Ok(())
}

/// Appends those of one channel.
fn push_open_of(track: &Track, channel: u32, losses: &mut Vec<Loss>) -> Result<(), NoMemory>
//~     requires { length track.now.positions ≤ MOST_HANDLES }
//~     ensures { OnOk result (losses.new.items ≡ with_open_of losses.old.items track.now channel (length track.now.positions)) }
{
    for receiver in 0..track.made() {
        push(losses, track.loss(channel, receiver as u32, LossEnd::Open))?;
    }
    Ok(())
}
