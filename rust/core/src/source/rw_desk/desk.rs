//! Desks: channels that threads call, each under its own lock.
// From crates/rw_desk/src/desk.rt, with its contracts as comments. //+
use crate::shim::Vec; //+

//~ ghost use Rattle.std.specs.Prelude.{◌≡◌, ◌↔◌, ◌<◌, ◌≤◌, ℕ, false, None, Some, All, length, map, slice_get};
//~ ghost use Rattle.std.specs.Prelude.{IfNone, IfOk, IfSome, IsErrOf, IsNone, IsTrue, MatchResult};
//~ ghost use Rattle.rw_law.specs.declared.limits.TheConstants.{MOST_ACTORS};
//~ ghost use Rattle.rw_world.specs.declared.opening.TheConstants.{MOST_CHANNELS};
//~ ghost use Rattle.rw_world.specs.Channel.{strays_at};
//~ ghost use Rattle.rw_world.specs.Openings.{has_bad_capacity, spec_kind, refusal};
//~ ghost use Rattle.rw_world.specs.Shapes.{stray_of};
//~ ghost use Rattle.rw_desk.specs.Desks.{HasOpened, IsAnswered, ends_at, refusal_to_open, row_call};
//~ ghost use Rattle.rw_desk.specs.Passes.{fresh_pass};

use crate::source::rw_desk::channel_lock::ChannelLock;
use crate::source::rw_desk::faults::{DeskFault, DeskOpenFault};
use crate::source::rw_desk::guarded_book::GuardedBook;
use crate::source::rw_desk::handles::{BRx, BTx, Ends, WRx, WTx};
use crate::source::rw_desk::pass::Pass;
use crate::source::rw_law::{MOST_ACTORS, NoMemory, Payload};
use crate::source::rw_world::{ChanCall, ChanReply, OpenFault, Spec, refusal_of};
use crate::shim::alloc::Global;
//~ use std::marker::Model;
use crate::shim::sync::Wait;

/// Channels that threads share by reference, each under its own lock, and the number of actors.
//~ #[derive(Drop)]
pub struct Desk<V: Payload> {
    pub(crate) specs: Vec<Spec<V>>,
    pub(crate) actors: u32,
    pub(crate) locks: Vec<ChannelLock<V>>,
}

//~ impl<V: Payload> Model for Desk<V> {
//~     ghost use Rattle.std.specs.Prelude.{length};
//~     ghost use Rattle.rw_desk.specs.Desks.{Desk as Seen, IsDesk};
//~
//~     ghost Value = { Seen V };
//~
//~     ghost view = { λ d. record { specs = d.specs.items; actors = d.actors } };
//~
//~     ghost invariant = { λ d. IsDesk d.specs.items d.actors (length d.locks.items) };
//~ }

impl<V: Payload> Desk<V> {
    /// Opens a desk with a channel for each spec, numbered 0, 1, 2, .. in order. Returns it with a pass for each actor and the
    /// first two handles of each channel.
    pub fn open(
        alloc: Global,
        specs: &[Spec<V>],
        actors: u32,
    ) -> Result<(Desk<V>, Vec<Pass<V>>, Vec<Ends>), DeskOpenFault>
//~         ensures refused { IfSome (refusal_to_open specs.now actors) (λ fault. result ≡ Err fault) }
//~         ensures opened { IfNone (refusal_to_open specs.now actors) (MatchResult result
//~             (λ r. HasOpened specs.now actors r.0 r.1.items r.2.items)
//~             (λ fault. fault ≡ DeskOpenFault.World OpenFault.NoMemory)) }
    {
        if let Some(fault) = refusal_to_open(specs, actors) {
            return Err(fault);
        }
        match Desk::open_all(alloc, specs, actors) {
            Ok(opened) => Ok(opened),
            Err(NoMemory) => Err(DeskOpenFault::World(OpenFault::NoMemory)),
        }
    }

    /// Opens a desk like `open`, for specs and a number of actors that `open` doesn't refuse.
    fn open_all(
        alloc: Global,
        specs: &[Spec<V>],
        actors: u32,
    ) -> Result<(Desk<V>, Vec<Pass<V>>, Vec<Ends>), NoMemory>
//~         requires opens { refusal specs.now ≡ None }
//~         requires good { All (λ spec. has_bad_capacity spec ≡ false) specs.now }
//~         requires some { 0 < actors }
//~         requires few { actors ≤ MOST_ACTORS }
//~         ensures { IfOk result (λ r. HasOpened specs.now actors r.0 r.1.items r.2.items) }
    {
        let passes = fresh_passes(alloc, actors)?;
        let ends = first_ends(alloc, specs)?;
        let locks = open_locks(alloc, specs)?;
        let Ok(specs) = Vec::from_slice(alloc, specs) else {
            return Err(NoMemory);
        };
        let desk = Desk {
            specs,
            actors,
            locks,
        };
        Ok((desk, passes, ends))
    }

    /// Makes a call. It acquires the lock of the call's channel, and no other.
    pub fn call<R: Wait>(
        &self,
        rt: &R,
        pass: &mut Pass<V>,
        channel: u32,
        call: ChanCall<V>,
    ) -> Result<ChanReply<V>, DeskFault>
//~         ensures { IsAnswered self.now.specs pass.old pass.new channel call (λ reply. reply) result }
    {
        match self.lock_of(channel, &call) {
            Some((spec, lock)) => lock.call(rt, spec, pass, channel, call),
            None => Err(DeskFault::NoChannel),
        }
    }

    /// Makes a call. If the reply would be `Waits`, it blocks until another thread's call changes that.
    #[inline(always)] //+
    pub fn wait_call<R: Wait>(
        &self,
        rt: &R,
        pass: &mut Pass<V>,
        channel: u32,
        call: ChanCall<V>,
    ) -> Result<ChanReply<V>, DeskFault>
//~         ensures answered { IsAnswered self.now.specs pass.old pass.new channel call (λ reply. reply) result }
//~         ensures waited { ¬ IsErrOf result DeskFault.Waits }
    {
        match self.lock_of(channel, &call) {
            Some((spec, lock)) => lock.wait_call(rt, spec, pass, channel, call),
            None => Err(DeskFault::NoChannel),
        }
    }

    /// Whether a thread sleeps until a channel changes, or `None` if there is no such channel. It acquires the lock of the channel,
    /// and no other.
    ///
    /// A thread that waits has released the lock. It looks for a change for a short time, and isn't seen here while it does. Then it
    /// sleeps until another thread's call may have changed the channel. So a test can see that a thread sleeps before it makes the
    /// call that ends the wait. No clause says whether a thread does.
    pub fn is_awaited<R: Wait>(&self, rt: &R, channel: u32) -> Option<bool>
//~         ensures { IsNone result ↔ length self.now.specs ≤ channel }
    {
        let lock = self.locks.get(channel as usize)?;
        Some(lock.is_awaited(rt))
    }

    /// Returns the spec and the lock of a call's channel, or `None` if the call strays.
    #[inline(always)] //+
    pub(crate) fn lock_of(
        &self,
        channel: u32,
        call: &ChanCall<V>,
    ) -> Option<(&Spec<V>, &ChannelLock<V>)>
//~         ensures none { IsNone result ↔ IsTrue (stray_of strays_at (map spec_kind self.now.specs) (row_call channel call.now)) }
//~         ensures there { IfSome result (λ r. slice_get self.now.specs channel ≡ Some r.0.now) }
//~         ensures some { IfSome result (λ r. strays_at (spec_kind r.0.now) call.now ≡ false) }
    {
        let at = channel as usize;
        let spec = self.specs.get(at)?;
        if spec.is_of_other_kind(call) {
            return None;
        }
        Some((spec, &self.locks[at]))
    }
}

/// Returns why a desk with these specs and this many actors can't be opened, if there is a reason. The number of actors is
/// checked first.
pub fn refusal_to_open<V: Copy>(specs: &[Spec<V>], actors: u32) -> Option<DeskOpenFault>
//~     ensures refusal { result ≡ refusal_to_open specs.now actors }
//~     ensures opens { IsNone result → refusal specs.now ≡ None }
//~     ensures good { IsNone result → All (λ spec. has_bad_capacity spec ≡ false) specs.now }
//~     ensures some { IsNone result → 0 < actors }
//~     ensures few { IsNone result → actors ≤ MOST_ACTORS }
{
    if actors == 0 || actors > MOST_ACTORS {
        return Some(DeskOpenFault::BadActors);
    }
    match refusal_of(specs) {
        Some(fault) => Some(DeskOpenFault::World(fault)),
        None => None,
    }
}

/// Makes a pass for each actor, without receipts.
fn fresh_passes<V: Copy>(alloc: Global, actors: u32) -> Result<Vec<Pass<V>>, NoMemory>
//~     requires { actors ≤ MOST_ACTORS }
//~     ensures { IfOk result (λ passes. (length passes.items ≡ actors) × ((a : ℕ) → a < actors → slice_get passes.items a ≡ Some (fresh_pass a))) }
{
    let mut passes = Vec::new(alloc);
    for actor in 0..actors {
        passes.push(Pass::new(alloc, actor))?;
    }
    Ok(passes)
}

/// Returns the first two handles of each channel.
fn first_ends<V: Copy>(alloc: Global, specs: &[Spec<V>]) -> Result<Vec<Ends>, NoMemory>
//~     requires { length specs.now ≤ MOST_CHANNELS }
//~     ensures { IfOk result (λ ends. (length ends.items ≡ length specs.now)
//~         × ((c : ℕ) → c < length specs.now → slice_get ends.items c ≡ ends_at c (slice_get specs.now c))) }
{
    let mut ends = Vec::new(alloc);
    for channel in 0..specs.len() {
        ends.push(ends_of(channel as u32, &specs[channel]))?;
    }
    Ok(ends)
}

/// Returns sender 0 and receiver 1 of a channel.
fn ends_of<V: Copy>(channel: u32, spec: &Spec<V>) -> Ends
//~     ensures { Some result ≡ ends_at channel (Some spec.now) }
{
    match spec {
        Spec::Broadcast(_) => {
            Ends::Broadcast(BTx { channel, number: 0 }, BRx { channel, number: 1 })
        }
        Spec::Watch(_) => Ends::Watch(WTx { channel, number: 0 }, WRx { channel, number: 1 }),
    }
}

/// Opens the channels.
fn open_locks<V: Payload>(alloc: Global, specs: &[Spec<V>]) -> Result<Vec<ChannelLock<V>>, NoMemory>
//~     requires { All (λ spec. has_bad_capacity spec ≡ false) specs.now }
//~     ensures { IfOk result (λ locks. length locks.items ≡ length specs.now) }
{
    let mut locks = Vec::new(alloc);
    for spec in specs {
        locks.push(ChannelLock::new(GuardedBook::open(alloc, spec)?))?;
    }
    Ok(locks)
}
