//! A broadcast and those who wait for it.
// From crates/rw_waiting/src/broadcasts.rt, with its contracts as comments. //+
//~ ghost use Rattle.std.specs.Prelude.{◌≡◌, ◌<◌};
//~ ghost use Rattle.rw_broadcast.specs.Shown.{IsAllowed, next, patch_of, reply_of, weight};
//~ ghost use Rattle.rw_waiting.specs.Broadcasts.{told_after, told_by};
//~ ghost use Rattle.rw_handles.specs.Slots.{alive};
//~ ghost use Rattle.rw_waiting.specs.Listed.{after_told, woken};
//~ ghost use Rattle.rw_waiting.specs.Queue.{entries_of};
//~ ghost use Rattle.rw_waiting.specs.Told.{told_by_drop};

use crate::source::rw_waiting::notices::{Notice, WaitFor, told};
use crate::source::rw_waiting::waiting::Waiting;
use crate::source::rw_broadcast::{BCall, BPatch, BReply, Broadcast};
use crate::source::rw_handles::Kind;
use crate::source::rw_law::Reversible;
use crate::shim::alloc::Global;
use crate::shim::collections::BTreeMap;

/// Returns what the last call on a broadcast told those who wait, given its patch.
pub fn told_on_broadcast<V: Copy>(channel: &Broadcast<V>, patch: &BPatch<V>) -> Option<WaitFor>
//~     ensures { result ≡ told_after channel.now.shown patch.now }
{
    match *patch {
        BPatch::Pushed | BPatch::Evicted(_) => told(Notice::Sent),
        BPatch::Left(kind, _) => told_by_drop(channel, kind),
        _ => None,
    }
}

/// Returns what the drop of a handle of this kind has told those who wait.
fn told_by_drop<V: Copy>(channel: &Broadcast<V>, kind: Kind) -> Option<WaitFor>
//~     ensures { result ≡ told_by_drop kind (alive kind channel.now.shown.slots) }
{
    told(Notice::Dropped(kind, channel.alive(kind)))
}

/// Makes a call on a broadcast, and takes those off the list whom it tells. Returns its reply, and what wakes
/// them, by their tickets.
pub fn call_broadcast<V: Copy, W/*~: Drop~*/>(
    alloc: Global,
    channel: &mut Broadcast<V>,
    waiting: &mut Waiting<W>,
    call: &BCall<V>,
) -> (BReply<V>, BTreeMap<u64, W>)
//~     requires room { weight channel.old.shown < channel.old.limit }
//~     requires allowed { IsAllowed channel.old.shown }
//~     ensures shown { channel.new.shown ≡ next channel.old.shown call.now }
//~     ensures reply { result.0 ≡ reply_of channel.old.shown call.now }
//~     ensures woken { entries_of result.1.entries ≡ woken waiting.old (told_by channel.old.shown call.now) }
//~     ensures left { waiting.new ≡ after_told waiting.old (told_by channel.old.shown call.now) }
{
    let (reply, patch) = channel.apply(call);
    let told = told_on_broadcast(channel, &patch);
    (reply, waiting.woken(alloc, told))
}
