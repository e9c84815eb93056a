//! The machine of one channel, which follows the places of a run.
// From crates/rw_findings/src/following.rt, with its contracts as comments. //+

//~ ghost use Rattle.std.specs.Prelude.{◌+◌, ◌<◌, ◌≤◌, IfOk, length};
//~ ghost use Rattle.rw_findings.specs.Following.{Stands};
//~ ghost use Rattle.rw_navigator.specs.Places.{last_place};

use crate::source::rw_journal::Run;
use crate::source::rw_law::{NoMemory, Reversible};
use crate::source::rw_world::{Chan, documented, open_channel, refusal_of};
use crate::shim::alloc::Global;

/// Opens the machine of a channel at place 0. All memory that its calls will need is allocated here.
pub(crate) fn opened<V: Copy>(
    alloc: Global,
    run: &Run<V>,
    channel: u32,
) -> Result<Chan<V>, NoMemory>
//~     requires { channel < length run.now.specs }
//~     ensures { IfOk result (λ machine. Stands run.now channel machine 0) }
{
    documented::<V>();
    let specs = run.specs();
    // The proof needs this call: it ensures that each capacity is one that a broadcast can have.
    let _refusal = refusal_of(specs);
    let entries = run.entries();
    let spec = &specs[channel as usize];
    let mut machine = open_channel(alloc, spec)?;
    machine.ready(entries.len() as u64)?;
    Ok(machine)
}

/// Makes the call that leads from a place to the next, if it is on the channel.
pub(crate) fn advance<V: Copy>(machine: &mut Chan<V>, run: &Run<V>, channel: u32, place: u64)
//~     requires here { Stands run.now channel machine.old place }
//~     requires more { place < last_place run.now }
//~     ensures { Stands run.now channel machine.new (place + 1) }
{
    documented::<V>();
    let entry = &run.entries()[place as usize];
    if entry.call.channel == channel {
        let _ = machine.apply(&entry.call.call);
    }
}

/// Advances from place 0 to this place.
pub(crate) fn advance_to<V: Copy>(machine: &mut Chan<V>, run: &Run<V>, channel: u32, place: u64)
//~     requires here { Stands run.now channel machine.old 0 }
//~     requires inside { place ≤ last_place run.now }
//~     ensures { Stands run.now channel machine.new place }
{
    'each_place: for before in 0..place {
        advance(machine, run, channel, before);
    }
}

/// Advances from a place, unless it is the last.
pub(crate) fn advance_within<V: Copy>(machine: &mut Chan<V>, run: &Run<V>, channel: u32, place: u64)
//~     requires { Stands run.now channel machine.old place }
//~     ensures { place < last_place run.now → Stands run.now channel machine.new (place + 1) }
{
    if place < run.len() {
        advance(machine, run, channel, place);
    }
}
