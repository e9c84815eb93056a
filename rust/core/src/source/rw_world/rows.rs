//! Machines in a row.
// From crates/rw_world/src/rows.rt, with its contracts as comments. //+
use crate::shim::Vec; //+

//~ ghost use Rattle.std.specs.Prelude.{◌≡◌, length, slice_get};
//~ ghost use Rattle.std.specs.Option.{option_copied};

use crate::source::rw_world::members::{Member, apply_at, greatest_weight, least_limit, ready_all, undo_at};
use crate::source::rw_law::{NoMemory, Reversible};
//~ use std::marker::Model;

/// A call to one of the machines in a row.
#[derive(Clone, Copy, Debug, PartialEq, Eq)]
pub struct RowCall<C> {
    pub channel: u32,
    pub call: C,
}

/// Machines that are called one at a time, each by its number: 0, 1, 2, ..
///
/// A row weighs as much as its heaviest member, and its limit is the least of theirs. `weight`, `limit` and `ready` use each
/// member; `apply` and `undo` use only the one that is called.
//~ #[derive(Drop)]
pub struct Row<M: Reversible> {
    members: Vec<M>,
}

//~ impl<M: Reversible> Model for Row<M> {
//~     ghost use Rattle.std.specs.Prelude.{List};
//~
//~     ghost Value = { List M };
//~
//~     ghost view = { λ a. a.members.items };
//~ }

impl<M: Reversible> Row<M> {
    /// Puts these machines in a row. It doesn't allocate.
    pub fn of(members: Vec<M>) -> Row<M>
//~         ensures { result ≡ members.items }
    {
        Row { members }
    }

    /// Returns how many channels there are.
    pub fn len(&self) -> usize
//~         ensures { result ≡ length self.now }
    {
        self.members.len()
    }

    /// Returns the machine of a channel, if it is there.
    pub fn channel(&self, i: usize) -> Option<&M>
//~         ensures { option_copied result ≡ slice_get self.now i }
    {
        self.members.get(i)
    }
}

impl<M: Member> Reversible for Row<M> {
//~     ghost use Rattle.std.specs.Prelude.{List, map};
//~     ghost use Rattle.rw_world.specs.Row as row;
//~     ghost use Rattle.rw_world.specs.Lists.{least};
//~     ghost use Rattle.rw_world.specs.RowLaws.{row_laws};

    type Call = RowCall<M::Call>;

    type Reply = M::Reply;

    type Patch = M::Patch;

//~     ghost View = { List M.View };

//~     ghost shown = { λ s. map M.shown s };

//~     ghost reserved = { λ s. least M.reserved s };

//~     ghost allowed = { row.IsAllowed M.Reversible };

//~     ghost weigh = { row.weigh M.Reversible };

//~     ghost next = { row.next M.Reversible };

//~     ghost reply_of = { row.reply_of M.Reversible M.missing };

//~     ghost patch_of = { row.patch_of M.Reversible M.missing };

//~     ghost back = { row.back M.Reversible };

//~     ghost fits = { row.Fits M.Reversible };

//~     ghost refuses = { M.refuses };

//~     ghost is_waiting = { M.is_waiting };

//~     ghost is_straying = { M.is_straying };

//~     ghost laws = { row_laws ⟦<M as Reversible>⟧ M.missing M.laws };

    fn weight(&self) -> u64 {
        greatest_weight(&self.members)
    }

    fn limit(&self) -> u64 {
        least_limit(&self.members)
    }

    fn ready(&mut self, n: u64) -> Result<(), NoMemory> {
        let wanted = self.weight() + n;
        ready_all(&mut self.members, wanted)
    }

//~     #[tactic(auto, using(crate::proofs::OneMember::modified_past, crate::proofs::OneMember::none_past))]
    fn apply(&mut self, call: &RowCall<M::Call>) -> (M::Reply, M::Patch) {
        let channel = call.channel as usize;
        if channel < self.members.len() {
            apply_at(&mut self.members, channel, &call.call)
        } else {
            M::missing()
        }
    }

//~     #[tactic(auto, using(crate::proofs::OneMember::modified_past))]
    fn undo(&mut self, call: &RowCall<M::Call>, patch: &M::Patch) {
        let channel = call.channel as usize;
        if channel < self.members.len() {
            undo_at(&mut self.members, channel, &call.call, patch);
        }
    }

    fn waits(reply: &M::Reply) -> bool {
        M::waits(reply)
    }

    fn strays(reply: &M::Reply) -> bool {
        M::strays(reply)
    }
}
