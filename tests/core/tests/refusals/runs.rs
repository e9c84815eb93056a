//! Runs: built entry by entry, and opened again at their start.

use crate::met::{TRIES, refused, say, tried};
use crate::readings::{Readings, SPECS, of_world};
use proved::Global;
use proved::rw_broadcast::{BCall, BReply};
use proved::rw_journal::{PushFault, Run, RunDraft};
use proved::rw_law::{NoMemory, Payload};
use proved::rw_watch::{WCall, WReply};
use proved::rw_world::{ChanCall, ChanReply, OpenFault, RowCall, Spec, World};

/// A draft of a run of these specs.
fn new_draft<V: Payload>(specs: &[Spec<V>]) -> Result<RunDraft<V>, OpenFault> {
    for _ in 0..TRIES {
        match RunDraft::open(Global, specs) {
            Ok(draft) => return Ok(draft),
            Err(OpenFault::NoMemory) => refused(true),
            Err(fault) => return Err(fault),
        }
    }
    Err(OpenFault::NoMemory)
}

/// Pushes a step. That nothing was pushed at a refusal is seen in the run, which has each step once.
fn push<V: Payload>(
    draft: &mut RunDraft<V>,
    actor: u32,
    stamp: u64,
    call: RowCall<ChanCall<V>>,
    reply: ChanReply<V>,
) -> Result<(), PushFault> {
    for _ in 0..TRIES {
        match draft.push(actor, stamp, call, reply) {
            Err(PushFault::NoMemory) => refused(draft.specs().len() == 2),
            answer => return answer,
        }
    }
    Err(PushFault::NoMemory)
}

/// Returns the run of a draft. It allocates nothing.
fn finish<V: Payload>(draft: RunDraft<V>) -> Run<V> {
    draft.finish()
}

/// The world before a run's first entry.
fn start<V: Copy>(run: &Run<V>) -> Result<World<V>, NoMemory> {
    tried(run, |run| run.len(), |run| run.start(Global))
}

/// Pushes twenty sends of their stamps, and as many values stored at the same stamps.
fn push_all<V: Payload>(draft: &mut RunDraft<V>) -> Result<(), PushFault> {
    for stamp in 1..21 {
        let Some(value) = V::from_word(stamp) else {
            return Err(PushFault::Limit);
        };
        let sent = RowCall {
            channel: 0,
            call: ChanCall::B(BCall::Send(0, value)),
        };
        let stored = RowCall {
            channel: 1,
            call: ChanCall::W(WCall::Send(0, value)),
        };
        push(draft, 0, stamp, sent, ChanReply::B(BReply::Sent(1)))?;
        push(draft, 1, stamp, stored, ChanReply::W(WReply::Stored))?;
    }
    Ok(())
}

/// A run of these.
pub fn build<V: Payload>(specs: &[Spec<V>]) -> Option<Run<V>> {
    let Ok(mut draft) = new_draft(specs) else {
        return None;
    };
    if push_all(&mut draft).is_err() {
        drop(draft);
        return None;
    }
    Some(finish(draft))
}

/// What a world shows.
fn readings_in<V: Payload>(world: World<V>) -> Readings {
    of_world(&world)
}

/// Says what a run's channels show before its first entry.
fn say_start<V: Payload>(run: &Run<V>) {
    match start(run) {
        Ok(world) => say!("  {:?}", readings_in(world)),
        Err(NoMemory) => say!("  isn't started"),
    }
}

/// Plays a run of these specs, and says how long it is and how it starts.
fn play_run<V: Payload>(specs: &[Spec<V>]) {
    let Some(run) = build(specs) else {
        return say!("a run isn't built");
    };
    say!("a run of {} entries", run.len());
    say_start(&run);
}

/// Plays a run.
pub fn play() {
    play_run(&SPECS)
}
