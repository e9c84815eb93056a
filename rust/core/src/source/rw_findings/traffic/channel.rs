//! What came on a channel.
// From crates/rw_findings/src/traffic/channel.rt, with its contracts as comments. //+
use crate::shim::Vec; //+

//~ ghost use Rattle.std.specs.Prelude.{◌≡◌, [], IfOk, OnOk};
//~ ghost use Rattle.rw_findings.specs.Traffic.{HasRoom, IsFollowed, first_lives};
//~ ghost use Rattle.rw_findings.specs.Values.{NotedState};

use crate::source::rw_findings::handles::kind_of;
use crate::source::rw_findings::lives::{Life, add_made, count_call, open_lives};
use crate::source::rw_findings::values::{ChannelValue, note_state};
use crate::source::rw_law::{Entry, NoMemory, Reversible};
use crate::source::rw_world::{Chan, World};
use crate::shim::alloc::Global;
//~ use std::marker::Model;

/// The values of a channel by number, and the lives of its handles by theirs.
//~ #[derive(Drop)]
pub struct ChannelTraffic<V: Copy> {
    values: Vec<ChannelValue<V>>,
    lives: Vec<Life>,
}

//~ impl<V: Copy> Model for ChannelTraffic<V> {
//~     ghost use Rattle.rw_findings.specs.Traffic.{ChannelTraffic as Seen};
//~
//~     ghost Value = { Seen V };
//~
//~     ghost view = { λ a. record { values = a.values.items; lives = a.lives.items } };
//~ }

impl<V: Copy> ChannelTraffic<V> {
    /// Returns what is there at a channel's opening: the value of a watch, a sender and a receiver.
    pub(super) fn open(alloc: Global, machine: &Chan<V>) -> Result<ChannelTraffic<V>, NoMemory>
//~         ensures values { IfOk result (λ traffic. NotedState [] traffic.values (⟦<Chan<V> as Reversible>⟧.shown machine.now) 0) }
//~         ensures lives { IfOk result (λ traffic. traffic.lives ≡ first_lives) }
    {
        let mut values = Vec::new(alloc);
        note_state(&mut values, machine, 0)?;
        let mut lives = Vec::new(alloc);
        open_lives(alloc, &mut lives)?;
        Ok(ChannelTraffic { values, lives })
    }

    /// Returns the values as `values_of` finds them.
    pub fn values(&self) -> &[ChannelValue<V>]
//~         ensures { result.now ≡ self.now.values }
    {
        self.values.as_slice()
    }

    /// Returns the lives as `lives_of` finds them.
    pub fn lives(&self) -> &[Life]
//~         ensures { result.now ≡ self.now.lives }
    {
        self.lives.as_slice()
    }

    /// Follows an entry of the channel, which leads to this place, where this is the machine.
    pub(super) fn follow(
        &mut self,
        alloc: Global,
        entry: &Entry<World<V>>,
        machine: &Chan<V>,
        place: u64,
    ) -> Result<(), NoMemory>
//~         requires { HasRoom self.old }
//~         ensures { OnOk result (IsFollowed self.old self.new entry.now (⟦<Chan<V> as Reversible>⟧.shown machine.now) place) }
    {
        note_state(&mut self.values, machine, place)?;
        let handle = entry.call.call.handle();
        let kind = kind_of(machine, handle);
        count_call(&mut self.lives, handle, entry.actor, kind, place)?;
        add_made(alloc, &mut self.lives, machine, place, entry.actor)
    }
}
