//! A channel's lock, and the threads that wait for a change of the channel.
// From crates/rw_desk/src/channel_lock.rt, with its contracts as comments. //+
use crate::shim::Vec; //+

//~ ghost use Rattle.std.specs.Prelude.{◌≡◌, false, Some, IfErr, OnErr, IfOk, IsErrOf};
//~ ghost use Rattle.std.specs.Fn.{FnOnceReturnsAtMut};
//~ ghost use Rattle.rw_world.specs.Channel.{strays_at};
//~ ghost use Rattle.rw_world.specs.declared.kinds.ChannelKind.TheVariants as kind;
//~ ghost use Rattle.rw_world.specs.Openings.{spec_kind};
//~ ghost use Rattle.rw_desk.specs.Closing.{IsCopyFault, IsJournalFrom};
//~ ghost use Rattle.rw_desk.specs.Modifying.{HasModifiedChannel};
//~ ghost use Rattle.rw_desk.specs.Passes.{HasReceipt};

use crate::source::rw_desk::faults::{CloseFault, DeskFault};
use crate::source::rw_desk::guarded_book::GuardedBook;
use crate::source::rw_desk::modification::Told;
use crate::source::rw_desk::pass::Pass;
use crate::source::rw_law::{Entry, Payload};
use crate::source::rw_world::{Chan, ChanCall, ChanReply, Spec};
use crate::shim::alloc::Global;
use crate::shim::hint::spin_loop;
use crate::shim::sync::atomic::AtomicU64;
use crate::shim::sync::atomic::Ordering::SeqCst;
use crate::shim::sync::{Condvar, Mutex, MutexGuard, Wait};

/// How many times a thread looks for a change before it sleeps.
const LOOKS: u32 = 100;

/// How many times a thread tries to acquire the lock before it sleeps until the lock is free.
const TRIES: u32 = 16;

/// How many times it spins after the first try that fails. After each further one it spins twice as often, up to `LAST_SPINS` times.
///
/// It doesn't look at the lock in between, since each look takes the cache line from the thread that has it. Meanwhile that thread
/// makes several calls.
const FIRST_SPINS: u32 = 32;

const LAST_SPINS: u32 = 128;

/// A channel's book under its lock, and what wakes the threads that wait for a change of the channel.
///
/// A thread that waits first looks for a change, without the lock, and then sleeps until it is woken. Where calls follow each other
/// closely, the change mostly comes while it looks.
//~ #[derive(Drop)]
pub struct ChannelLock<V: Payload> {
    shared: Mutex<GuardedBook<V>>,
    changed: Condvar,
    // How many changes there were for which a thread looked. It is written under the lock alone.
    changes: AtomicU64,
    // Padding: no two channels share a cache line. Otherwise a call of one would slow calls of the other.
    _apart: [u64; 16],
}

impl<V: Payload> ChannelLock<V> {
    pub fn new(locked: GuardedBook<V>) -> ChannelLock<V> {
        ChannelLock {
            shared: Mutex::new(locked),
            changed: Condvar::new(),
            changes: AtomicU64::new(0),
            _apart: [0; 16],
        }
    }

    /// Makes a call under the lock.
    pub fn call<R: Wait>(
        &self,
        rt: &R,
        spec: &Spec<V>,
        pass: &mut Pass<V>,
        channel: u32,
        call: ChanCall<V>,
    ) -> Result<ChanReply<V>, DeskFault>
//~         requires { strays_at (spec_kind spec.now) call ≡ false }
//~         ensures receipt { IfOk result (λ reply. HasReceipt (Some spec.now) pass.old pass.new channel call reply) }
//~         ensures refused { OnErr result (pass.new ≡ pass.old) }
//~         ensures no_stray { ¬ IsErrOf result DeskFault.NoChannel }
    {
        let mut guard = self.acquire(rt);
        let answer = guard.record(spec, pass, channel, call);
        self.leave(guard, &answer);
        answer
    }

    /// Makes a call under the lock, and blocks while its reply would be `Waits`.
    #[inline(always)] //+
    pub fn wait_call<R: Wait>(
        &self,
        rt: &R,
        spec: &Spec<V>,
        pass: &mut Pass<V>,
        channel: u32,
        call: ChanCall<V>,
    ) -> Result<ChanReply<V>, DeskFault>
//~         requires { strays_at (spec_kind spec.now) call ≡ false }
//~         ensures receipt { IfOk result (λ reply. HasReceipt (Some spec.now) pass.old pass.new channel call reply) }
//~         ensures refused { OnErr result (pass.new ≡ pass.old) }
//~         ensures no_stray { ¬ IsErrOf result DeskFault.NoChannel }
//~         ensures waited { ¬ IsErrOf result DeskFault.Waits }
    {
        let mut guard = self.acquire(rt);
        for _ in rt.forever() {
            match guard.record(spec, pass, channel, call) {
                Err(DeskFault::Waits) => {}
                answer => {
                    self.leave(guard, &answer);
                    return answer;
                }
            }
            guard = self.wait_for_change(rt, guard);
        }
        unreachable!()
    }

    /// Modifies the value of a watch with f, under the lock.
    pub fn modify<R: Wait, T: Told, F: FnOnce(&mut V) -> T>(
        &self,
        rt: &R,
        spec: &Spec<V>,
        pass: &mut Pass<V>,
        channel: u32,
        sender: u32,
        f: F,
    ) -> Result<ChanReply<V>, DeskFault>
//~         requires f { F.IsAlwaysCallable f }
//~         requires watch { spec_kind spec.now ≡ kind.Watch }
//~         ensures modified { IfOk result (HasModifiedChannel
//~             (λ v told w. (t : T) × FnOnceReturnsAtMut F.FnOnce f v t w × (told ≡ T.tells t))
//~             (λ v. Unit {0}) (Some spec.now) pass.old pass.new channel sender) }
//~         ensures refused { OnErr result (pass.new ≡ pass.old) }
//~         ensures no_stray { ¬ IsErrOf result DeskFault.NoChannel }
    {
        let mut guard = self.acquire(rt);
        let answer = guard.modify(spec, pass, channel, sender, f);
        self.leave(guard, &answer);
        answer
    }

    /// Whether a thread sleeps until the channel changes.
    pub fn is_awaited<R: Wait>(&self, rt: &R) -> bool {
        let guard = self.acquire(rt);
        let is_awaited = guard.is_awaited();
        drop(guard);
        is_awaited
    }

    /// Returns a copy of the journal, for a desk that has this spec for the channel. It needs no lock, since `&mut self` is
    /// exclusive.
    pub fn journal(
        &mut self,
        alloc: Global,
        spec: &Spec<V>,
    ) -> Result<Vec<Entry<Chan<V>>>, CloseFault>
//~         ensures journal { IfOk result (λ journal. IsJournalFrom spec.now journal.items) }
//~         ensures fault { IfErr result IsCopyFault }
    {
        self.shared.get_mut().journal(alloc, spec)
    }

    /// Acquires the lock, and blocks until it is free.
    #[inline(always)] //+
    fn acquire<R: Wait>(&self, rt: &R) -> MutexGuard<'_, GuardedBook<V>> {
        let mut spins = FIRST_SPINS;
        for _ in 0..TRIES {
            if let Some(guard) = self.shared.try_lock() {
                return guard;
            }
            spin(spins);
            spins = spins.saturating_mul(2).min(LAST_SPINS);
        }
        self.shared.lock(rt)
    }

    /// Releases the lock until the channel may have changed, and acquires it again.
    fn wait_for_change<'a, R: Wait>(
        &'a self,
        rt: &R,
        mut guard: MutexGuard<'a, GuardedBook<V>>,
    ) -> MutexGuard<'a, GuardedBook<V>> {
        let changes = self.changes.load(SeqCst);
        guard.set_watched(true);
        drop(guard);
        self.look_for_change(changes);
        let mut guard = self.acquire(rt);
        // The first change since was counted, since the flag was set until then.
        if self.changes.load(SeqCst) != changes {
            return guard;
        }
        guard.set_awaited(true);
        // The lock is released and the wait begins in one step, so no change is missed in between.
        self.changed.wait(rt, guard)
    }

    /// Returns once there was another change than the first `changes`, or after `LOOKS` looks.
    fn look_for_change(&self, changes: u64) {
        for _ in 0..LOOKS {
            if self.changes.load(SeqCst) != changes {
                return;
            }
            spin_loop();
        }
    }

    /// Releases the lock. If the call may have changed the channel, it tells the threads that look for a change, and wakes those
    /// that sleep.
    #[inline(always)] //+
    fn leave(
        &self,
        mut guard: MutexGuard<'_, GuardedBook<V>>,
        answer: &Result<ChanReply<V>, DeskFault>,
    ) {
        let has_lookers = guard.is_watched();
        let has_sleepers = guard.is_awaited();
        let is_news = (has_lookers || has_sleepers) && !is_refused(answer);
        if is_news && has_lookers {
            guard.set_watched(false);
            self.changes.fetch_add(1, SeqCst);
        }
        if is_news && has_sleepers {
            guard.set_awaited(false);
        }
        drop(guard);
        if is_news && has_sleepers {
            self.changed.notify_all();
        }
    }
}

/// Spins this many times.
fn spin(times: u32) {
    for _ in 0..times {
        spin_loop();
    }
}

/// Whether this result means that the call changed nothing.
#[inline(always)] //+
fn is_refused<V: Copy>(answer: &Result<ChanReply<V>, DeskFault>) -> bool {
    match answer {
        Ok(reply) => reply.refuses(),
        Err(_) => true,
    }
}
