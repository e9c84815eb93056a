//! The handles of a channel of either kind.
// From crates/rw_findings/src/handles.rt, with its contracts as comments. //+

//~ ghost use Rattle.std.specs.Prelude.{◌≡◌};
//~ ghost use Rattle.rw_findings.specs.Lives.{kind_in, made_in};

use crate::source::rw_handles::Kind;
use crate::source::rw_law::Reversible;
use crate::source::rw_world::Chan;

/// Returns how many handles a channel has made.
pub(super) fn made<V: Copy>(channel: &Chan<V>) -> u32
//~     ensures { result ≡ made_in (⟦<Chan<V> as Reversible>⟧.shown channel.now) }
{
    match channel {
        Chan::Broadcast(machine) => machine.made(),
        Chan::Watch(machine) => machine.made(),
    }
}

/// Returns the kind of a handle, if it is alive.
pub(super) fn kind_of<V: Copy>(channel: &Chan<V>, handle: u32) -> Option<Kind>
//~     ensures { result ≡ kind_in (⟦<Chan<V> as Reversible>⟧.shown channel.now) handle }
{
    match channel {
        Chan::Broadcast(machine) => machine.kind(handle),
        Chan::Watch(machine) => machine.kind(handle),
    }
}
