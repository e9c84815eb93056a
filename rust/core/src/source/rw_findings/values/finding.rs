//! The pass over a run that finds the values of a channel.
// From crates/rw_findings/src/values/finding.rt, with its contracts as comments. //+
use crate::shim::Vec; //+

//~ ghost use Rattle.std.specs.Prelude.{◌≡◌, ◌+◌, ◌<◌, [], IfOk, OnOk, length};
//~ ghost use Rattle.rw_findings.specs.Following.{Stands};
//~ ghost use Rattle.rw_findings.specs.Values.{AreValues, AreValuesTo, NotedState, gone, has_had, oldest_in, value_in};
//~ ghost use Rattle.rw_navigator.specs.Places.{last_place};
//~ ghost use Rattle.rw_world.specs.Lists.{map_at};

use super::value::ChannelValue;
use crate::source::rw_findings::following::{advance, opened};
use crate::source::rw_journal::Run;
use crate::source::rw_law::{NoMemory, Reversible};
use crate::source::rw_world::{Chan, documented};
use crate::shim::alloc::Global;

/// Finds the values of a channel, in the order of their numbers: those sent to a broadcast, or the first value of a watch and one
/// for each change that its receivers were notified of. A silent change of a watch's value has no number.
///
/// It passes once over the entries. Besides the values it needs a channel's memory.
pub fn values_of<V: Copy>(
    alloc: Global,
    run: &Run<V>,
    channel: u32,
) -> Result<Vec<ChannelValue<V>>, NoMemory>
//~     ensures { IfOk result (λ values. AreValues run.now channel values.items) }
{
    documented::<V>();
    let mut values = Vec::new(alloc);
    if run.specs().len() <= channel as usize {
        return Ok(values);
    }
    follow_run(alloc, run, channel, &mut values)?;
    Ok(values)
}

/// Finds the values of a channel, with its machine.
fn follow_run<V: Copy>(
    alloc: Global,
    run: &Run<V>,
    channel: u32,
    values: &mut Vec<ChannelValue<V>>,
) -> Result<(), NoMemory>
//~     requires inside { channel < length run.now.specs }
//~     requires empty { values.old.items ≡ [] }
//~     ensures { OnOk result (AreValues run.now channel values.new.items) }
{
    let mut machine = opened(alloc, run, channel)?;
    follow_all(run, channel, &mut machine, values)
}

/// Follows all entries. The machine is at the first place, place 0.
fn follow_all<V: Copy>(
    run: &Run<V>,
    channel: u32,
    machine: &mut Chan<V>,
    values: &mut Vec<ChannelValue<V>>,
) -> Result<(), NoMemory>
//~     requires here { Stands run.now channel machine.old 0 }
//~     requires empty { values.old.items ≡ [] }
//~     ensures { OnOk result (AreValues run.now channel values.new.items) }
{
    documented::<V>();
    note_state(values, machine, 0)?;
    'each_place: for place in 0..run.len() {
        follow(run, channel, place, machine, values)?;
    }
    Ok(())
}

/// Follows the entry that leads on from a place, and makes its call if it is on the channel.
fn follow<V: Copy>(
    run: &Run<V>,
    channel: u32,
    place: u64,
    machine: &mut Chan<V>,
    values: &mut Vec<ChannelValue<V>>,
) -> Result<(), NoMemory>
//~     requires here { Stands run.now channel machine.old place }
//~     requires more { place < last_place run.now }
//~     requires values { AreValuesTo run.now channel place values.old.items }
//~     ensures here { OnOk result (Stands run.now channel machine.new (place + 1)) }
//~     ensures values { OnOk result (AreValuesTo run.now channel (place + 1) values.new.items) }
{
    documented::<V>();
    // The proof needs this call: it ensures that there are so few places that there is a number for the next.
    let _entries = run.entries();
    advance(machine, run, channel, place);
    note_state(values, machine, place + 1)?;
    Ok(())
}

/// Notes what a channel shows at a place: the value that came there, if one did, and the one that it overwrote.
pub(crate) fn note_state<V: Copy>(
    values: &mut Vec<ChannelValue<V>>,
    machine: &Chan<V>,
    place: u64,
) -> Result<(), NoMemory>
//~     ensures { OnOk result (NotedState values.old.items values.new.items (⟦<Chan<V> as Reversible>⟧.shown machine.now) place) }
{
    let number = values.len() as u64;
    if !has_had(machine, number) {
        return Ok(());
    }
    if let Some(value) = value_in(machine, number) {
        values.push(ChannelValue {
            value,
            since: place,
            overwritten: None,
        })?;
        let oldest = oldest_in(machine);
        if 0 < oldest {
            overwrite(values, oldest - 1, place);
        }
    }
    Ok(())
}

/// Notes that the value of a number was overwritten at a place, if there is one.
fn overwrite<V: Copy>(values: &mut [ChannelValue<V>], number: u64, place: u64)
//~     ensures { values.new ≡ map_at (gone place) values.old number }
{
    let number = number as usize;
    if number < values.len() {
        go(&mut values[number], place);
    }
}

/// Notes that a value was overwritten at a place.
fn go<V: Copy>(value: &mut ChannelValue<V>, place: u64)
//~     ensures { value.new ≡ gone place value.old }
{
    value.overwritten = Some(place);
}

/// Whether a channel has had a value of this number.
fn has_had<V: Copy>(channel: &Chan<V>, number: u64) -> bool
//~     ensures { result ≡ has_had (⟦<Chan<V> as Reversible>⟧.shown channel.now) number }
{
    match channel {
        Chan::Broadcast(machine) => number < machine.sent(),
        Chan::Watch(machine) => number <= machine.version(),
    }
}

/// Returns the number of the oldest value that a channel still has.
fn oldest_in<V: Copy>(channel: &Chan<V>) -> u64
//~     ensures { result ≡ oldest_in (⟦<Chan<V> as Reversible>⟧.shown channel.now) }
{
    match channel {
        Chan::Broadcast(machine) => machine.sent().saturating_sub(machine.capacity()),
        Chan::Watch(machine) => machine.version(),
    }
}

/// Returns the value of a number that a channel has.
fn value_in<V: Copy>(channel: &Chan<V>, number: u64) -> Option<V>
//~     ensures { result ≡ value_in (⟦<Chan<V> as Reversible>⟧.shown channel.now) number }
{
    match channel {
        Chan::Broadcast(machine) => {
            let oldest = machine.sent().saturating_sub(machine.capacity());
            machine.window(number.saturating_sub(oldest))
        }
        Chan::Watch(machine) => {
            if number == machine.version() {
                Some(machine.value())
            } else {
                None
            }
        }
    }
}
