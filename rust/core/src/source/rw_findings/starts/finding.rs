//! The pass over a run that finds where its losses began.
// From crates/rw_findings/src/starts/finding.rt, with its contracts as comments. //+
use crate::shim::Vec; //+

//~ ghost use Rattle.std.specs.Prelude.{◌≡◌, ◌≤◌, IfOk};
//~ ghost use Rattle.rw_findings.specs.Losses.{AreLosses};
//~ ghost use Rattle.rw_findings.specs.Receivers.{AreStarts, position_in};
//~ ghost use Rattle.rw_navigator.specs.Places.{last_place};

use super::receipts::{follow_to, last_of};
use super::start::LossStart;
use crate::source::rw_findings::losses::Loss;
use crate::source::rw_findings::peaks::Peaks;
use crate::source::rw_journal::Run;
use crate::source::rw_law::{NoMemory, Reversible};
use crate::source::rw_navigator::Visitor;
use crate::source::rw_world::{Chan, World, documented, machines};
use crate::shim::alloc::Global;

/// Finds where the losses of a run began: which value was the first that was lost, and where the receiver had received last.
///
/// A world goes over the run once, if there is a loss. Besides that it needs 8 bytes a handle.
pub fn starts_of<V: Copy>(
    alloc: Global,
    run: &Run<V>,
    losses: &[Loss],
) -> Result<Vec<LossStart>, NoMemory>
//~     requires { AreLosses run.now losses.now }
//~     ensures { IfOk result (λ starts. AreStarts run.now losses.now starts.items) }
{
    machines::<V>();
    documented::<V>();
    let mut starts = Vec::with_capacity(alloc, losses.len())?;
    if losses.is_empty() {
        return Ok(starts);
    }
    let mut visitor = Visitor::open(alloc, run)?;
    let mut given = Peaks::new(alloc);
    let mut place = 0;
    for loss in losses {
        follow_to(alloc, run, &mut given, place, loss.from)?;
        go_on(&mut visitor, run, place, loss.from);
        place = loss.from;
        let position = position_in(visitor.state(), loss.channel, loss.receiver);
        starts.push_reserved(LossStart {
            first: position.unwrap_or(0),
            received: last_of(&given, loss.channel, loss.receiver),
        });
    }
    Ok(starts)
}

/// Goes on to a place.
fn go_on<V: Copy>(visitor: &mut Visitor<V>, run: &Run<V>, from: u64, to: u64)
//~     requires run { visitor.old.run ≡ run.now }
//~     requires here { visitor.old.place ≡ from }
//~     requires on { from ≤ to }
//~     requires inside { to ≤ last_place run.now }
//~     ensures run { visitor.new.run ≡ run.now }
//~     ensures here { visitor.new.place ≡ to }
{
    'each_place: for _place in from..to {
        visitor.advance(run);
    }
}

/// Returns the position of a live receiver of a broadcast.
fn position_in<V: Copy>(world: &World<V>, channel: u32, receiver: u32) -> Option<u64>
//~     ensures { result ≡ position_in (⟦<World<V> as Reversible>⟧.shown world.now) channel receiver }
{
    match world.channel(channel as usize)? {
        Chan::Broadcast(machine) => machine.position(receiver),
        Chan::Watch(_) => None,
    }
}
