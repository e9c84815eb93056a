//! The pass over a run that finds the lives of a channel's handles.
// From crates/rw_findings/src/lives/finding.rt, with its contracts as comments. //+
use crate::shim::Vec; //+

//~ ghost use Rattle.std.specs.Prelude.{◌≡◌, ◌+◌, ◌<◌, ◌^◌, [], ◌∷◌, ◌++◌, None, IfOk, OnOk, length, slice_get, slice_index_or};
//~ ghost use Rattle.rw_findings.specs.Following.{Stands};
//~ ghost use Rattle.rw_findings.specs.Lives.{AreLives, AreLivesTo, Life as Seen, CountedCall, AddedMade, born};
//~ ghost use Rattle.rw_navigator.specs.Places.{last_place};

use super::life::Life;
use crate::source::rw_findings::following::{advance, opened};
use crate::source::rw_findings::handles::{kind_of, made};
use crate::source::rw_handles::Kind;
use crate::source::rw_journal::Run;
use crate::source::rw_law::{NoMemory, Reversible};
use crate::source::rw_world::{Chan, documented};
use crate::shim::alloc::Global;

/// Finds the lives of a channel's handles, in the order of their numbers.
///
/// It passes once over the entries. Besides the lives it needs a channel's memory.
pub fn lives_of<V: Copy>(alloc: Global, run: &Run<V>, channel: u32) -> Result<Vec<Life>, NoMemory>
//~     ensures { IfOk result (λ lives. AreLives run.now channel lives.items) }
{
    documented::<V>();
    let mut lives = Vec::new(alloc);
    if run.specs().len() <= channel as usize {
        return Ok(lives);
    }
    follow_run(alloc, run, channel, &mut lives)?;
    Ok(lives)
}

/// Finds the lives of a channel's handles, with its machine.
fn follow_run<V: Copy>(
    alloc: Global,
    run: &Run<V>,
    channel: u32,
    lives: &mut Vec<Life>,
) -> Result<(), NoMemory>
//~     requires inside { channel < length run.now.specs }
//~     requires empty { lives.old.items ≡ [] }
//~     ensures { OnOk result (AreLives run.now channel lives.new.items) }
{
    documented::<V>();
    open_lives(alloc, lives)?;
    let mut machine = opened(alloc, run, channel)?;
    follow_all(alloc, run, channel, &mut machine, lives)
}

/// Follows all entries. The machine is at place 0.
fn follow_all<V: Copy>(
    alloc: Global,
    run: &Run<V>,
    channel: u32,
    machine: &mut Chan<V>,
    lives: &mut Vec<Life>,
) -> Result<(), NoMemory>
//~     requires here { Stands run.now channel machine.old 0 }
//~     requires lives { AreLivesTo run.now channel 0 lives.old.items }
//~     ensures { OnOk result (AreLives run.now channel lives.new.items) }
{
    'each_place: for place in 0..run.len() {
        follow(alloc, run, channel, place, machine, lives)?;
    }
    Ok(())
}

/// Appends the lives of the handles that a channel opens with: a sender and a receiver.
pub(crate) fn open_lives(alloc: Global, lives: &mut Vec<Life>) -> Result<(), NoMemory>
//~     ensures { OnOk result (lives.new.items ≡ lives.old.items ++ born Kind.Sender 0 None ∷ born Kind.Receiver 0 None ∷ []) }
{
    lives.push(Life::new(alloc, Kind::Sender, 0, None))?;
    lives.push(Life::new(alloc, Kind::Receiver, 0, None))?;
    Ok(())
}

/// Follows the entry that leads on from a place, and makes its call if it is on the channel.
fn follow<V: Copy>(
    alloc: Global,
    run: &Run<V>,
    channel: u32,
    place: u64,
    machine: &mut Chan<V>,
    lives: &mut Vec<Life>,
) -> Result<(), NoMemory>
//~     requires here { Stands run.now channel machine.old place }
//~     requires more { place < last_place run.now }
//~     requires lives { AreLivesTo run.now channel place lives.old.items }
//~     ensures here { OnOk result (Stands run.now channel machine.new (place + 1)) }
//~     ensures lives { OnOk result (AreLivesTo run.now channel (place + 1) lives.new.items) }
{
    documented::<V>();
    let entry = &run.entries()[place as usize];
    advance(machine, run, channel, place);
    if entry.call.channel != channel {
        return Ok(());
    }
    let handle = entry.call.call.handle();
    count_call(
        lives,
        handle,
        entry.actor,
        kind_of(machine, handle),
        place + 1,
    )?;
    add_made(alloc, lives, machine, place + 1, entry.actor)?;
    Ok(())
}

/// Counts an actor's call with a handle, if this was made, and notes the kind that the handle has at a place.
pub(crate) fn count_call(
    lives: &mut Vec<Life>,
    handle: u32,
    actor: u32,
    kind: Option<Kind>,
    place: u64,
) -> Result<(), NoMemory>
//~     requires { (life : Seen) → slice_get lives.old.items handle ≡ Some life → slice_index_or life.calls actor 0 < 2 ^ 63 }
//~     ensures { OnOk result (CountedCall lives.old.items lives.new.items handle actor kind place) }
{
    if (handle as usize) < lives.len() {
        let life = &mut lives[handle as usize];
        life.count(actor)?;
        life.see(kind, place);
    }
    Ok(())
}

/// Adds the life of the handle that a channel has just made, if it has made one.
pub(crate) fn add_made<V: Copy>(
    alloc: Global,
    lives: &mut Vec<Life>,
    machine: &Chan<V>,
    place: u64,
    actor: u32,
) -> Result<(), NoMemory>
//~     ensures { OnOk result (AddedMade lives.old.items lives.new.items (⟦<Chan<V> as Reversible>⟧.shown machine.now) place actor) }
{
    if made(machine) as usize <= lives.len() {
        return Ok(());
    }
    if let Some(kind) = kind_of(machine, lives.len() as u32) {
        lives.push(Life::new(alloc, kind, place, Some(actor)))?;
    }
    Ok(())
}
