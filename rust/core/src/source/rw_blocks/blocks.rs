//! The lines that show the channels of a world.
// From crates/rw_blocks/src/blocks.rt, with its contracts as comments. //+
use crate::shim::Vec; //+

//~ ghost use Rattle.std.specs.Prelude.{◌≡◌, ◌++◌, OnOk};
//~ ghost use Rattle.rw_blocks.specs.Blocks.{channel_block, world_blocks};

use crate::source::rw_blocks::broadcast_block::push_broadcast;
use crate::source::rw_blocks::watch_block::push_watch;
use crate::source::rw_law::Reversible;
use crate::source::rw_world::{Chan, World};
use crate::shim::alloc::AllocError;

/// Appends the lines of channel i.
fn push_channel(out: &mut Vec<u8>, i: u64, channel: &Chan<u64>) -> Result<(), AllocError>
//~     ensures { OnOk result (out.new.items ≡ out.old.items ++ channel_block i (⟦<Chan<u64> as Reversible>⟧.shown channel.now)) }
{
    match channel {
        Chan::Broadcast(machine) => push_broadcast(out, i, machine),
        Chan::Watch(machine) => push_watch(out, i, machine),
    }
}

/// Appends the lines of all channels.
pub fn push_world(out: &mut Vec<u8>, world: &World<u64>) -> Result<(), AllocError>
//~     ensures { OnOk result (out.new.items ≡ out.old.items ++ world_blocks (⟦<World<u64> as Reversible>⟧.shown world.now)) }
{
    'each_channel: for i in 0..world.len() {
        push_channel(out, i as u64, world.channel(i).unwrap())?;
    }
    Ok(())
}
