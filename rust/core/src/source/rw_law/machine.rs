//! Machines whose steps can be undone.
// From crates/rw_law/src/machine.rt, with its contracts as comments. //+

//~ ghost use Rattle.std.specs.Prelude.{◌≡◌, ℕ, ◌+◌, ◌<◌, ◌≤◌, Bool, OnOk, IsOk};
//~ ghost use Rattle.rw_law.specs.Laws.{Laws};
//~ ghost use Rattle.rw_law.specs.declared.limits.TheConstants.{MOST_WEIGHT};

use crate::source::rw_law::memory::NoMemory;

/// A machine whose steps can be undone.
///
/// Contracts describe a machine by what it shows, its view, and by the room that it has reserved. A step, its reply, its
/// patch and its inverse are functions of the view.
pub trait Reversible {
    /// A call to a machine.
    type Call: Copy;

    /// The reply to a call.
    type Reply: Copy;

    /// What undoing a step needs besides its call. It is copied, so it is of fixed size.
    type Patch: Copy;

//~     /// What a machine shows: all but the room that it has reserved.
//~     ghost View: { Type 0 };

//~     ghost shown: { Self → View };
//~     /// The weight up to which it has room.
//~     ghost reserved: { Self → ℕ };

//~     /// Holds of the views that machines have.
//~     ghost allowed: { View → Type 0 };

//~     /// How much of the room a machine uses.
//~     ghost weigh: { View → ℕ };

//~     /// What is shown after a call.
//~     ghost next: { View → Self.Call → View };

//~     /// The reply to a call.
//~     ghost reply_of: { View → Self.Call → Self.Reply };

//~     /// The patch of a call's step.
//~     ghost patch_of: { View → Self.Call → Self.Patch };

//~     /// What was shown before the step, where the patch fits.
//~     ghost back: { View → Self.Call → Self.Patch → View };

//~     /// Holds where the patch can undo the call in this view.
//~     ghost fits: { View → Self.Call → Self.Patch → Type 0 };

//~     /// Whether the reply refuses: the call has changed nothing.
//~     ghost refuses: { Self.Reply → Bool };

//~     /// Whether the reply means that the call would wait.
//~     ghost is_waiting: { Self.Reply → Bool };

//~     /// Whether the reply means that the machine has no channel for the call.
//~     ghost is_straying: { Self.Reply → Bool };

    /// Returns how much of the room is used. No call raises it by more than one.
    fn weight(&self) -> u64
//~         ensures weight { result ≡ weigh (shown self.now) }
        /*~ensures known { allowed (shown self.now) }~*/;

    /// Returns the weight up to which there is room.
    fn limit(&self) -> u64
//~         ensures limit { result ≡ reserved self.now }
        /*~ensures bound { result ≤ MOST_WEIGHT }~*/;

    /// Makes room for n more calls. Where there is room already, it doesn't allocate.
    fn ready(&mut self, n: u64) -> Result<(), NoMemory>
//~         requires { weigh (shown self.old) + n ≤ MOST_WEIGHT }
//~         ensures view { shown self.new ≡ shown self.old }
//~         ensures room { OnOk result (weigh (shown self.old) + n ≤ reserved self.new) }
//~         ensures kept { reserved self.old ≤ reserved self.new }
        /*~ensures ample { weigh (shown self.old) + n ≤ reserved self.old → IsOk result }~*/;

    /// Makes a call. It doesn't allocate.
    fn apply(&mut self, call: &Self::Call) -> (Self::Reply, Self::Patch)
//~         requires { weigh (shown self.old) < reserved self.old }
//~         ensures view { shown self.new ≡ next (shown self.old) call.now }
//~         ensures reply { result.0 ≡ reply_of (shown self.old) call.now }
//~         ensures patch { result.1 ≡ patch_of (shown self.old) call.now }
        /*~ensures room { reserved self.new ≡ reserved self.old }~*/;

    /// Undoes the last call with the patch that `apply` returned for it. It doesn't allocate.
    fn undo(&mut self, call: &Self::Call, patch: &Self::Patch)
//~         requires { fits (shown self.old) call.now patch.now }
//~         ensures view { shown self.new ≡ back (shown self.old) call.now patch.now }
        /*~ensures room { reserved self.new ≡ reserved self.old }~*/;

    /// Whether a call with this reply would wait. Such a reply is never recorded.
    fn waits(reply: &Self::Reply) -> bool
        /*~ensures { result ≡ is_waiting reply.now }~*/;

    /// Whether the machine has no channel for a call with this reply. Such a reply is never recorded.
    fn strays(reply: &Self::Reply) -> bool
        /*~ensures { result ≡ is_straying reply.now }~*/;

//~     /// The laws, which each machine proves.
//~     ghost laws: { Laws allowed weigh next reply_of patch_of back fits refuses is_waiting is_straying };
}
