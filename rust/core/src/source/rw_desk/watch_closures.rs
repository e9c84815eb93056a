//! The calls of watch channels with a closure.
// From crates/rw_desk/src/watch_closures.rt, with its contracts as comments. //+

//~ ghost use Rattle.std.specs.Prelude.{◌≡◌, ◌↔◌, true, IfOk, IsErrOf, IsTrue, MatchOption, OnErr, slice_get};
//~ ghost use Rattle.std.specs.Fn.{FnOnceReturnsAtMut, FnReturnsAt};
//~ ghost use Rattle.rw_desk.specs.Desks.{has_no_watch};
//~ ghost use Rattle.rw_desk.specs.Modifying.{HasModified};
//~ ghost use Rattle.rw_desk.specs.Waiting.{HasBroken, HasEnded, HasTried, HasWaited};

use crate::source::rw_desk::desk::Desk;
use crate::source::rw_desk::faults::DeskFault;
use crate::source::rw_desk::handles::{WRx, WTx};
use crate::source::rw_desk::modification::Told;
use crate::source::rw_desk::pass::Pass;
use crate::source::rw_law::Payload;
use crate::source::rw_watch::{WCall, WReply};
use crate::source::rw_world::{ChanCall, ChanReply};
use crate::shim::sync::Wait;

impl<V: Payload> Desk<V> {
    /// Modifies the value with f, and notifies the receivers if f returns true. f runs under the channel's lock, after all memory
    /// is allocated. If the handle is refused, f isn't called, and the receipt has the value unchanged, with `told` false.
    pub fn w_send_if_modified<R: Wait, F: FnOnce(&mut V) -> bool>(
        &self,
        rt: &R,
        pass: &mut Pass<V>,
        sender: &WTx,
        f: F,
    ) -> Result<WReply<V>, DeskFault>
//~         requires { F.IsAlwaysCallable f }
//~         ensures modified { IfOk result (HasModified
//~             (λ v told w. FnOnceReturnsAtMut F.FnOnce f v told w)
//~             (λ v. Unit {0}) (slice_get self.now.specs sender.now.channel)
//~             pass.old pass.new sender.now.channel sender.now.number) }
//~         ensures refused { OnErr result (pass.new ≡ pass.old) }
//~         ensures no_channel { IsErrOf result DeskFault.NoChannel ↔ IsTrue (has_no_watch self.now.specs sender.now.channel) }
    {
        self.w_modify(rt, pass, sender, f)
    }

    /// Modifies the value with f, and notifies the receivers. f runs as in `w_send_if_modified`.
    pub fn w_send_modify<R: Wait, F: FnOnce(&mut V)>(
        &self,
        rt: &R,
        pass: &mut Pass<V>,
        sender: &WTx,
        f: F,
    ) -> Result<WReply<V>, DeskFault>
//~         requires { F.IsAlwaysCallable f }
//~         ensures modified { IfOk result (HasModified
//~             (λ v told w. (told ≡ true) × FnOnceReturnsAtMut F.FnOnce f v tt w)
//~             (λ v. Unit {0}) (slice_get self.now.specs sender.now.channel)
//~             pass.old pass.new sender.now.channel sender.now.number) }
//~         ensures refused { OnErr result (pass.new ≡ pass.old) }
//~         ensures no_channel { IsErrOf result DeskFault.NoChannel ↔ IsTrue (has_no_watch self.now.specs sender.now.channel) }
    {
        self.w_modify(rt, pass, sender, f)
    }

    /// Waits for a value for which f returns true, and marks it as seen by the receiver. Each read of a value, and each wait for
    /// a change between two reads, is a separate call. At a fault the calls before it stay recorded.
    pub fn w_wait_for<R: Wait, F: Fn(&V) -> bool>(
        &self,
        rt: &R,
        pass: &mut Pass<V>,
        receiver: &WRx,
        f: F,
    ) -> Result<WReply<V>, DeskFault>
//~         requires { F.IsAlwaysCallable f }
//~         ensures waited { HasWaited (λ v told. FnReturnsAt F.Fn f v told) (slice_get self.now.specs receiver.now.channel)
//~             receiver.now.channel receiver.now.number pass.old pass.new result }
//~         ensures no_channel { IsErrOf result DeskFault.NoChannel ↔ IsTrue (has_no_watch self.now.specs receiver.now.channel) }
//~         ensures no_wait { ¬ IsErrOf result DeskFault.Waits }
    {
        for _ in rt.forever() {
            if let Some(reply) = self.w_try_for(rt, pass, receiver, &f)? {
                return Ok(reply);
            }
        }
        unreachable!()
    }

    /// Reads the value, and waits for a change if f returns false for it. `None`: there was a change.
    fn w_try_for<R: Wait, F: Fn(&V) -> bool>(
        &self,
        rt: &R,
        pass: &mut Pass<V>,
        receiver: &WRx,
        f: &F,
    ) -> Result<Option<WReply<V>>, DeskFault>
//~         requires { F.IsAlwaysCallable f.now }
//~         ensures tried { IfOk result (λ ended. MatchOption ended
//~             (HasTried (λ v told. FnReturnsAt F.Fn f.now v told) (slice_get self.now.specs receiver.now.channel)
//~             receiver.now.channel receiver.now.number pass.old pass.new WReply.Done)
//~             (HasEnded (λ v told. FnReturnsAt F.Fn f.now v told) (slice_get self.now.specs receiver.now.channel)
//~             receiver.now.channel receiver.now.number pass.old pass.new)) }
//~         ensures broken { OnErr result (HasBroken
//~             (λ v told. FnReturnsAt F.Fn f.now v told) (slice_get self.now.specs receiver.now.channel)
//~             receiver.now.channel receiver.now.number pass.old pass.new) }
//~         ensures no_channel { IsErrOf result DeskFault.NoChannel ↔ IsTrue (has_no_watch self.now.specs receiver.now.channel) }
//~         ensures no_wait { ¬ IsErrOf result DeskFault.Waits }
    {
        let (channel, number) = (receiver.channel, receiver.number);
        match self.w_wait(rt, pass, channel, WCall::Update(number))? {
            WReply::Value(value) => {
                if f(&value) {
                    return Ok(Some(WReply::Value(value)));
                }
            }
            refused => return Ok(Some(refused)),
        }
        match self.w_changed(rt, pass, receiver)? {
            WReply::Done => Ok(None),
            ended => Ok(Some(ended)),
        }
    }

    /// Modifies the value with f.
    fn w_modify<R: Wait, T: Told, F: FnOnce(&mut V) -> T>(
        &self,
        rt: &R,
        pass: &mut Pass<V>,
        sender: &WTx,
        f: F,
    ) -> Result<WReply<V>, DeskFault>
//~         requires { F.IsAlwaysCallable f }
//~         ensures modified { IfOk result (HasModified
//~             (λ v told w. (t : T) × FnOnceReturnsAtMut F.FnOnce f v t w × (told ≡ T.tells t))
//~             (λ v. Unit {0}) (slice_get self.now.specs sender.now.channel)
//~             pass.old pass.new sender.now.channel sender.now.number) }
//~         ensures refused { OnErr result (pass.new ≡ pass.old) }
//~         ensures no_channel { IsErrOf result DeskFault.NoChannel ↔ IsTrue (has_no_watch self.now.specs sender.now.channel) }
    {
        let (channel, number) = (sender.channel, sender.number);
        let probe = ChanCall::W(WCall::Borrow(number));
        let Some((spec, lock)) = self.lock_of(channel, &probe) else {
            return Err(DeskFault::NoChannel);
        };
        match lock.modify(rt, spec, pass, channel, number, f)? {
            ChanReply::W(reply) => Ok(reply),
            _ => unreachable!(),
        }
    }
}
