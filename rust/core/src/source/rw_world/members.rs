//! The machines in a row: their trait, their steps and their room.
// From crates/rw_world/src/members.rt, with its contracts as comments. //+

//~ ghost use Rattle.std.specs.Prelude.{◌≡◌, ◌≤◌, ◌<◌, false, true, length, map, slice_get, Some, MatchOption, OnOk, IsOk};
//~ ghost use Rattle.std.specs.Option.{option_map};
//~ ghost use Rattle.rw_law.specs.declared.limits.TheConstants.{MOST_WEIGHT};
//~ ghost use Rattle.rw_world.specs.Lists.{map_at, Each, greatest, least};
//~ ghost use Rattle.rw_world.specs.Row.{Missing};

use crate::source::rw_law::{MOST_WEIGHT, NoMemory, Reversible};

/// A machine that can be in a row. It has a reply and a patch for calls whose channel isn't in the row. So a row's replies
/// and patches need no type of their own, and no more memory.
pub trait Member: Reversible {
//~     ghost missing: { Missing Self.Reply Self.Patch };

    /// Returns the reply and the patch of a call whose channel isn't there.
    fn missing() -> (Self::Reply, Self::Patch)
//~         ensures reply { result.0 ≡ missing.reply }
        /*~ensures patch { result.1 ≡ missing.patch }~*/;

//~     /// The reply means that there is no such channel.
//~     ghost missing_strays: { Self.is_straying missing.reply ≡ true };

//~     /// It doesn't mean that the call would wait.
//~     ghost missing_goes_on: { Self.is_waiting missing.reply ≡ false };
}

/// Makes a call on one member.
pub fn apply_at<M: Reversible>(members: &mut [M], i: usize, call: &M::Call) -> (M::Reply, M::Patch)
//~     requires within { i < length members.old }
//~     requires room { greatest M.weigh (map M.shown members.old) < least M.reserved members.old }
//~     ensures view { map M.shown members.new ≡ map_at (λ x. M.next x call.now) (map M.shown members.old) i }
//~     ensures reply { Some result.0 ≡ option_map (λ x. M.reply_of x call.now) (slice_get (map M.shown members.old) i) }
//~     ensures patch { Some result.1 ≡ option_map (λ x. M.patch_of x call.now) (slice_get (map M.shown members.old) i) }
//~     ensures room { least M.reserved members.new ≡ least M.reserved members.old }
{
    members[i].apply(call)
}

/// Undoes a call on one member.
pub fn undo_at<M: Reversible>(members: &mut [M], i: usize, call: &M::Call, patch: &M::Patch)
//~     requires within { i < length members.old }
//~     requires fits { MatchOption (slice_get (map M.shown members.old) i) (Unit {0}) (λ x. M.fits x call.now patch.now) }
//~     ensures view { map M.shown members.new ≡ map_at (λ x. M.back x call.now patch.now) (map M.shown members.old) i }
//~     ensures room { least M.reserved members.new ≡ least M.reserved members.old }
{
    members[i].undo(call, patch);
}

/// Makes room in a machine up to a total weight.
fn ready_one<M: Reversible>(machine: &mut M, wanted: u64) -> Result<(), NoMemory>
//~     requires weight { M.weigh (M.shown machine.old) ≤ wanted }
//~     requires bound { wanted ≤ MOST_WEIGHT }
//~     ensures view { M.shown machine.new ≡ M.shown machine.old }
//~     ensures room { OnOk result (wanted ≤ M.reserved machine.new) }
//~     ensures kept { M.reserved machine.old ≤ M.reserved machine.new }
//~     ensures ample { wanted ≤ M.reserved machine.old → IsOk result }
{
    let more = wanted - machine.weight();
    machine.ready(more)
}

/// Makes room in each member up to a total weight.
pub fn ready_all<M: Reversible>(members: &mut [M], wanted: u64) -> Result<(), NoMemory>
//~     requires weight { greatest M.weigh (map M.shown members.old) ≤ wanted }
//~     requires bound { wanted ≤ MOST_WEIGHT }
//~     ensures view { map M.shown members.new ≡ map M.shown members.old }
//~     ensures room { OnOk result (wanted ≤ least M.reserved members.new) }
//~     ensures kept { least M.reserved members.old ≤ least M.reserved members.new }
//~     ensures ample { wanted ≤ least M.reserved members.old → IsOk result }
{
    for i in (0..members.len()).rev() {
        ready_one(&mut members[i], wanted)?;
    }
    Ok(())
}

/// Returns the greatest weight of a member, or 0 where there is none.
pub fn greatest_weight<M: Reversible>(members: &[M]) -> u64
//~     ensures weight { result ≡ greatest M.weigh (map M.shown members.now) }
//~     ensures known { Each M.allowed (map M.shown members.now) }
{
    let mut greatest = 0;
    for i in (0..members.len()).rev() {
        greatest = members[i].weight().max(greatest);
    }
    greatest
}

/// Returns the least limit of a member, or the greatest limit that a machine can have where there is none.
pub fn least_limit<M: Reversible>(members: &[M]) -> u64
//~     ensures limit { result ≡ least M.reserved members.now }
//~     ensures bound { result ≤ MOST_WEIGHT }
{
    let mut least = MOST_WEIGHT;
    for i in (0..members.len()).rev() {
        least = members[i].limit().min(least);
    }
    least
}
