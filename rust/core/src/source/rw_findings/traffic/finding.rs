//! The pass over a run that finds what came on its channels.
// From crates/rw_findings/src/traffic/finding.rt, with its contracts as comments. //+
use crate::shim::Vec; //+

//~ ghost use Rattle.std.specs.Prelude.{◌≡◌, ◌<◌, IfOk, OnOk, false, length, option_map, slice_get, slice_index_or};
//~ ghost use Rattle.rw_findings.specs.Traffic.{AreFollowed, AreOpened, AreTraffic, HasRoomIfSome, HaveRoom, IsFollowedOn, IsOpened};

use super::channel::ChannelTraffic;
use crate::source::rw_journal::Run;
use crate::source::rw_law::{Entry, NoMemory, Reversible};
use crate::source::rw_navigator::Visitor;
use crate::source::rw_world::{Chan, World, documented, machines};
use crate::shim::alloc::Global;

/// Finds what came on each channel that is asked for. `channels` says for each channel whether it is. Of the others, and of those that
/// `channels` doesn't reach, nothing is found.
///
/// It passes once over the entries, with all channels' machines. Besides what is found it needs their memory.
pub fn traffic_of<V: Copy>(
    alloc: Global,
    run: &Run<V>,
    channels: &[bool],
) -> Result<Vec<Option<ChannelTraffic<V>>>, NoMemory>
//~     ensures { IfOk result (λ found. AreTraffic run.now channels.now found.items) }
{
    machines::<V>();
    documented::<V>();
    let mut visitor = Visitor::open(alloc, run)?;
    let start = visitor.state();
    let mut found = opened(alloc, start, channels)?;
    let mut place = 0;
    for entry in run.entries() {
        place += 1;
        visitor.advance(run);
        follow_entry(alloc, &mut found, entry, visitor.state(), place)?;
    }
    Ok(found)
}

/// Returns what is there at the opening of each channel that is asked for.
fn opened<V: Copy>(
    alloc: Global,
    world: &World<V>,
    channels: &[bool],
) -> Result<Vec<Option<ChannelTraffic<V>>>, NoMemory>
//~     ensures { IfOk result (λ found. AreOpened (⟦<World<V> as Reversible>⟧.shown world.now) channels.now (length world.now) found.items) }
{
    let mut found = Vec::with_capacity(alloc, world.len())?;
    'each_channel: for channel in 0..world.len() {
        let machine = world.channel(channel).unwrap();
        let traffic = opened_on(alloc, machine, is_asked(channels, channel))?;
        found.push_reserved(traffic);
    }
    Ok(found)
}

/// Returns what is there at the opening of a channel, if it is asked for.
fn opened_on<V: Copy>(
    alloc: Global,
    machine: &Chan<V>,
    is_asked: bool,
) -> Result<Option<ChannelTraffic<V>>, NoMemory>
//~     ensures { IfOk result (λ traffic. IsOpened is_asked (⟦<Chan<V> as Reversible>⟧.shown machine.now) traffic) }
{
    if is_asked {
        Ok(Some(ChannelTraffic::open(alloc, machine)?))
    } else {
        Ok(None)
    }
}

fn is_asked(channels: &[bool], channel: usize) -> bool
//~     ensures { result ≡ slice_index_or channels.now channel false }
{
    match channels.get(channel) {
        Some(is_asked) => *is_asked,
        None => false,
    }
}

fn machine_of<V: Copy>(world: &World<V>, channel: usize) -> Option<&Chan<V>>
//~     ensures { option_map (λ m. ⟦<Chan<V> as Reversible>⟧.shown m.now) result ≡ slice_get (⟦<World<V> as Reversible>⟧.shown world.now) channel }
{
    world.channel(channel)
}

/// Follows an entry, which leads to this place, where this is the world.
fn follow_entry<V: Copy>(
    alloc: Global,
    found: &mut Vec<Option<ChannelTraffic<V>>>,
    entry: &Entry<World<V>>,
    world: &World<V>,
    place: u64,
) -> Result<(), NoMemory>
//~     requires { HaveRoom found.old.items }
//~     ensures { OnOk result (AreFollowed found.old.items found.new.items entry.now (⟦<World<V> as Reversible>⟧.shown world.now) place) }
{
    let channel = entry.call.channel as usize;
    if found.len() <= channel {
        return Ok(());
    }
    if let Some(machine) = machine_of(world, channel) {
        follow_on_channel(alloc, &mut found[channel], entry, machine, place)?;
    }
    Ok(())
}

/// Follows it on its channel, where this is the machine, if the channel is asked for.
fn follow_on_channel<V: Copy>(
    alloc: Global,
    traffic: &mut Option<ChannelTraffic<V>>,
    entry: &Entry<World<V>>,
    machine: &Chan<V>,
    place: u64,
) -> Result<(), NoMemory>
//~     requires { HasRoomIfSome traffic.old }
//~     ensures { OnOk result (IsFollowedOn traffic.old traffic.new entry.now (⟦<Chan<V> as Reversible>⟧.shown machine.now) place) }
{
    match traffic {
        Some(traffic) => traffic.follow(alloc, entry, machine, place),
        None => Ok(()),
    }
}
