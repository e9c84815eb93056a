//! Channels of either kind.
// From crates/rw_world/src/channels.rt, with its contracts as comments. //+
use crate::shim::Vec; //+

//~ ghost use Rattle.std.specs.Prelude.{◌≡◌, IfOk, OnErr};
//~ ghost use Rattle.rw_world.specs.Channel.{handle_of, makes, new_handle, with_handle};
//~ ghost use Rattle.rw_world.specs.Machines.{handles_made, of_chan};
//~ ghost use Rattle.rw_world.specs.Renaming.{IsRenumbered};

use crate::source::rw_world::members::Member;
use crate::source::rw_broadcast::{BCall, BPatch, BReply, Broadcast};
use crate::source::rw_law::{NoMemory, Reversible};
use crate::source::rw_watch::{WCall, WPatch, WReply, Watch};
use crate::shim::alloc::Global;

/// A channel of this library: a broadcast or a watch.
///
/// A call of its own kind is made on its machine. A call of the other kind gets `NoChannel` and changes nothing.
//~ #[derive(Drop)]
pub enum Chan<V: Copy> {
    Broadcast(Broadcast<V>),
    Watch(Watch<V>),
}

/// A call to a channel of either kind.
#[derive(Clone, Copy, Debug, PartialEq)]
pub enum ChanCall<V> {
    B(BCall<V>),
    W(WCall<V>),
}

/// The reply of a channel's machine, or `NoChannel` for a call of the other kind, or on a channel that isn't there.
#[derive(Clone, Copy, Debug, PartialEq)]
pub enum ChanReply<V> {
    B(BReply<V>),
    W(WReply<V>),
    NoChannel,
}

/// What undoes a call to a channel.
#[derive(Clone, Copy, Debug, PartialEq)]
pub enum ChanPatch<V> {
    B(BPatch<V>),
    W(WPatch<V>),
    NoChannel,
}

impl<V: Copy> ChanCall<V> {
    /// Returns the number of the handle that the call is made with.
    pub fn handle(&self) -> u32
//~         ensures { result ≡ handle_of self.now }
    {
        match self {
            ChanCall::B(call) => call.handle(),
            ChanCall::W(call) => call.handle(),
        }
    }

    /// Returns the same call, made with another handle.
    pub fn with_handle(self, handle: u32) -> ChanCall<V>
//~         ensures { result ≡ with_handle self handle }
    {
        match self {
            ChanCall::B(call) => ChanCall::B(call.with_handle(handle)),
            ChanCall::W(call) => ChanCall::W(call.with_handle(handle)),
        }
    }

    /// Whether the call makes a handle, unless it is refused.
    pub fn makes(&self) -> bool
//~         ensures { result ≡ makes self.now }
    {
        match self {
            ChanCall::B(call) => call.makes(),
            ChanCall::W(call) => call.makes(),
        }
    }
}

impl<V: Copy> ChanReply<V> {
    /// Returns the number of the handle that the call made, if it made one.
    pub fn new_handle(&self) -> Option<u32>
//~         ensures { result ≡ new_handle self.now }
    {
        match self {
            ChanReply::B(BReply::New(handle)) => Some(*handle),
            ChanReply::W(WReply::New(handle)) => Some(*handle),
            _ => None,
        }
    }

    /// Whether the reply refuses: the call has changed nothing.
    pub fn refuses(&self) -> bool
//~         ensures { result ≡ of_chan.refuses self.now }
    {
        match self {
            ChanReply::B(reply) => reply.refuses(),
            ChanReply::W(reply) => reply.refuses(),
            ChanReply::NoChannel => true,
        }
    }
}

impl<V: Copy> Chan<V> {
    /// Returns a copy, which shows the same and has as much room. If an allocation fails, there is none.
    pub fn copied(&self, alloc: Global) -> Result<Chan<V>, NoMemory>
//~         ensures { IfOk result (λ copy. copy ≡ self.now) }
    {
        match self {
            Chan::Broadcast(machine) => Ok(Chan::Broadcast(machine.copied(alloc)?)),
            Chan::Watch(machine) => Ok(Chan::Watch(machine.copied(alloc)?)),
        }
    }

    /// Returns how many handles the channel has made, without those that `renumber` took out.
    pub fn made(&self) -> u32
//~         ensures { result ≡ handles_made (of_chan.shown self.now) }
    {
        match self {
            Chan::Broadcast(machine) => machine.made(),
            Chan::Watch(machine) => machine.made(),
        }
    }

    /// Takes the numbers of dropped handles out. The live handles stay in order, and get the numbers 0, 1, 2, .. Returns the
    /// number that each had before. By the law of renaming, each later call has the same reply as with the numbers before, but
    /// for the number of a new handle. At an error nothing has changed.
    pub fn renumber(&mut self, alloc: Global) -> Result<Vec<u32>, NoMemory>
//~         ensures renumbered { IfOk result (λ before. IsRenumbered before.items (of_chan.shown self.old) (of_chan.shown self.new)) }
//~         ensures limit { of_chan.reserved self.new ≡ of_chan.reserved self.old }
//~         ensures same { OnErr result (self.new ≡ self.old) }
    {
        match self {
            Chan::Broadcast(machine) => machine.renumber(alloc),
            Chan::Watch(machine) => machine.renumber(alloc),
        }
    }

    /// Whether a call is of the other kind. Such a call strays: its reply is `NoChannel`.
    pub fn is_of_other_kind(&self, call: &ChanCall<V>) -> bool
//~         ensures { result ≡ of_chan.is_straying (of_chan.reply_of (of_chan.shown self.now) call.now) }
    {
        match (self, call) {
            (Chan::Broadcast(_), ChanCall::B(_)) => false,
            (Chan::Watch(_), ChanCall::W(_)) => false,
            _ => true,
        }
    }
}

impl<V: Copy> Reversible for Chan<V> {
//~     ghost use Rattle.rw_broadcast.specs.Soundness.{broadcast_laws};
//~     ghost use Rattle.rw_watch.specs.Soundness.{watch_laws};
//~     ghost use Rattle.rw_world.specs.ChannelLaws.{channel_laws};
//~     ghost use Rattle.rw_world.specs.Machines.{ChanShown, of_broadcast, of_watch, of_chan};

    type Call = ChanCall<V>;

    type Reply = ChanReply<V>;

    type Patch = ChanPatch<V>;

//~     ghost View = { ChanShown V };

//~     ghost shown = { (of_chan {V = V}).shown };

//~     ghost reserved = { (of_chan {V = V}).reserved };

//~     ghost allowed = { (of_chan {V = V}).allowed };

//~     ghost weigh = { (of_chan {V = V}).weigh };

//~     ghost next = { (of_chan {V = V}).next };

//~     ghost reply_of = { (of_chan {V = V}).reply_of };

//~     ghost patch_of = { (of_chan {V = V}).patch_of };

//~     ghost back = { (of_chan {V = V}).back };

//~     ghost fits = { (of_chan {V = V}).fits };

//~     ghost refuses = { (of_chan {V = V}).refuses };

//~     ghost is_waiting = { (of_chan {V = V}).is_waiting };

//~     ghost is_straying = { (of_chan {V = V}).is_straying };

//~     ghost laws = { channel_laws of_broadcast of_watch broadcast_laws watch_laws };

    fn weight(&self) -> u64 {
        match self {
            Chan::Broadcast(machine) => machine.weight(),
            Chan::Watch(machine) => machine.weight(),
        }
    }

    fn limit(&self) -> u64 {
        match self {
            Chan::Broadcast(machine) => machine.limit(),
            Chan::Watch(machine) => machine.limit(),
        }
    }

    fn ready(&mut self, n: u64) -> Result<(), NoMemory> {
        match self {
            Chan::Broadcast(machine) => machine.ready(n),
            Chan::Watch(machine) => machine.ready(n),
        }
    }

    #[inline(always)]
    fn apply(&mut self, call: &ChanCall<V>) -> (ChanReply<V>, ChanPatch<V>) {
        match (self, call) {
            (Chan::Broadcast(machine), ChanCall::B(call)) => {
                let (reply, patch) = machine.apply(call);
                (ChanReply::B(reply), ChanPatch::B(patch))
            }
            (Chan::Watch(machine), ChanCall::W(call)) => {
                let (reply, patch) = machine.apply(call);
                (ChanReply::W(reply), ChanPatch::W(patch))
            }
            _ => (ChanReply::NoChannel, ChanPatch::NoChannel),
        }
    }

    fn undo(&mut self, call: &ChanCall<V>, patch: &ChanPatch<V>) {
        match (self, call, patch) {
            (Chan::Broadcast(machine), ChanCall::B(call), ChanPatch::B(patch)) => {
                machine.undo(call, patch);
            }
            (Chan::Watch(machine), ChanCall::W(call), ChanPatch::W(patch)) => {
                machine.undo(call, patch);
            }
            _ => {}
        }
    }

    #[inline(always)] //+
    fn waits(reply: &ChanReply<V>) -> bool {
        match reply {
            ChanReply::B(reply) => Broadcast::<V>::waits(reply),
            ChanReply::W(reply) => Watch::<V>::waits(reply),
            ChanReply::NoChannel => false,
        }
    }

    #[inline(always)] //+
    fn strays(reply: &ChanReply<V>) -> bool {
        matches!(reply, ChanReply::NoChannel)
    }
}

impl<V: Copy> Member for Chan<V> {
//~     ghost use Rattle.std.specs.Prelude.{refl};
//~     ghost use Rattle.rw_world.specs.Channel.{no_channel};

//~     ghost missing = { no_channel };

//~     ghost missing_strays = { refl };

//~     ghost missing_goes_on = { refl };

    fn missing() -> (ChanReply<V>, ChanPatch<V>) {
        (ChanReply::NoChannel, ChanPatch::NoChannel)
    }
}
