//! A new channel that calls of one actor lead to what another channel is like.
// From crates/rw_recording/src/leading.rt, with its contracts as comments. //+
use crate::shim::Vec; //+

//~ ghost use Rattle.std.specs.Prelude.{◌≡◌, ◌<◌, false, true, IfOk, IfErr};
//~ ghost use Rattle.rw_law.specs.declared.limits.TheConstants.{MOST_ACTORS};
//~ ghost use Rattle.rw_world.specs.Openings.{has_bad_capacity};
//~ ghost use Rattle.rw_recording.specs.declared.faults.WindowFault.{WindowFault};
//~ ghost use Rattle.rw_recording.specs.Leading.{AreBy};
//~ ghost use Rattle.rw_recording.specs.NoLeads.{IsUnled};

use crate::source::rw_recording::faults::WindowFault;
use crate::source::rw_recording::numbering::zeros;
use crate::source::rw_recording::recording::Recording;
use crate::source::rw_world::{ChanCall, ChanReply, Spec};
use crate::shim::alloc::Global;
//~ use std::marker::Model;

/// A new channel whose calls are made by one actor, and the numbers that its handles have: `numbers[h]` is that of the handle which
/// stands for handle h of another channel.
//~ #[derive(Drop)]
pub(crate) struct Leading {
    recording: Recording,
    actor: u32,
    clock: u64,
    // How many calls it may have.
    most: u64,
    numbers: Vec<u32>,
}

//~ impl Model for Leading {
//~     ghost use Rattle.rw_recording.specs.Leading.{Leading as Seen, IsLeading};
//~
//~     ghost Value = { Seen };
//~
//~     ghost view = { λ l. record { spec = l.recording.spec; actor = l.actor; clock = l.clock; most = l.most } };
//~
//~     ghost invariant = { λ l. IsLeading l.recording l.actor l.clock };
//~ }

impl Leading {
    /// Opens a channel whose handles stand for this many, and that has at most this many calls.
    pub fn open(
        alloc: Global,
        spec: Spec<u64>,
        actor: u32,
        clock: u64,
        handles: u32,
        most: u64,
    ) -> Result<Leading, WindowFault>
//~         requires actor { actor < MOST_ACTORS }
//~         requires good { has_bad_capacity spec ≡ false }
//~         ensures leading { IfOk result (λ leading. leading ≡ record { spec = spec; actor = actor; clock = clock; most = most }) }
//~         ensures fault { IfErr result (λ fault. fault ≡ WindowFault.NoMemory) }
    {
        let numbers = zeros(alloc, handles)?;
        let recording = Recording::open(alloc, spec).map_err(|_| WindowFault::NoMemory)?;
        Ok(Leading {
            recording,
            actor,
            clock,
            most,
            numbers,
        })
    }

    /// Makes a call, unless it has as many as it may have: then it is unlike any channel that was counted.
    pub fn make(&mut self, call: ChanCall<u64>) -> Result<ChanReply<u64>, WindowFault>
//~         ensures same { self.new ≡ self.old }
//~         ensures fault { IfErr result (IsUnled self.old) }
    {
        if self.recording.len() >= self.most {
            return Err(WindowFault::Unlike);
        }
        match self.recording.call(self.actor, self.clock, call) {
            Ok(reply) => Ok(reply),
            Err(fault) => Err(WindowFault::of(fault)),
        }
    }

    /// Has the handle of this number stand for handle h of the other channel.
    pub(crate) fn stand(&mut self, h: u32, number: u32)
//~         ensures { self.new ≡ self.old }
    {
        if (h as usize) < self.numbers.len() {
            self.numbers[h as usize] = number;
        }
    }

    /// Makes a call that creates a handle, which stands for handle h of the other channel.
    pub(crate) fn make_for(&mut self, h: u32, call: ChanCall<u64>) -> Result<(), WindowFault>
//~         ensures same { self.new ≡ self.old }
//~         ensures fault { IfErr result (IsUnled self.old) }
    {
        let reply = self.make(call)?;
        if let Some(number) = reply.new_handle() {
            self.stand(h, number);
        }
        Ok(())
    }

    /// Returns the recording of the calls, and the numbers of the handles.
    pub fn into_parts(self) -> (Recording, Vec<u32>)
//~         ensures spec { result.0.spec ≡ self.spec }
//~         ensures recorded { result.0.is_recorded ≡ true }
//~         ensures by { AreBy self.actor self.clock result.0.journal }
    {
        let Leading {
            recording,
            actor: _,
            clock: _,
            most: _,
            numbers,
        } = self;
        (recording, numbers)
    }
}
