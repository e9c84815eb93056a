//! The calls of watch channels, by handles.
// From crates/rw_desk/src/watch_calls.rt, with its contracts as comments. //+

//~ ghost use Rattle.std.specs.Prelude.{IsErrOf};
//~ ghost use Rattle.rw_desk.specs.Answers.{IsAnsweredW, IsDropping, MakesWRx, MakesWTx};

use crate::source::rw_desk::desk::Desk;
use crate::source::rw_desk::faults::DeskFault;
use crate::source::rw_desk::handles::{WRx, WTx};
use crate::source::rw_desk::made::Made;
use crate::source::rw_desk::pass::Pass;
use crate::source::rw_law::Payload;
use crate::source::rw_watch::{WCall, WReply};
use crate::source::rw_world::{ChanCall, ChanReply};
use crate::shim::sync::Wait;

impl<V: Payload> Desk<V> {
    /// Makes a call of a watch channel.
    pub(crate) fn w_call<R: Wait>(
        &self,
        rt: &R,
        pass: &mut Pass<V>,
        channel: u32,
        call: WCall<V>,
    ) -> Result<WReply<V>, DeskFault>
//~         ensures { IsAnsweredW self.now.specs pass.old pass.new channel call result }
    {
        match self.call(rt, pass, channel, ChanCall::W(call))? {
            ChanReply::W(reply) => Ok(reply),
            _ => unreachable!(),
        }
    }

    /// Makes a call of a watch channel, and blocks while its reply would be `Waits`.
    pub(crate) fn w_wait<R: Wait>(
        &self,
        rt: &R,
        pass: &mut Pass<V>,
        channel: u32,
        call: WCall<V>,
    ) -> Result<WReply<V>, DeskFault>
//~         ensures answered { IsAnsweredW self.now.specs pass.old pass.new channel call result }
//~         ensures waited { ¬ IsErrOf result DeskFault.Waits }
    {
        match self.wait_call(rt, pass, channel, ChanCall::W(call))? {
            ChanReply::W(reply) => Ok(reply),
            _ => unreachable!(),
        }
    }

    /// Makes a receiver, by this call of a watch channel.
    fn w_new_receiver<R: Wait>(
        &self,
        rt: &R,
        pass: &mut Pass<V>,
        channel: u32,
        call: WCall<V>,
    ) -> Result<Made<WRx, WReply<V>>, DeskFault>
//~         ensures { MakesWRx self.now.specs pass.old pass.new channel call result }
    {
        match self.w_call(rt, pass, channel, call)? {
            WReply::New(number) => Ok(Made::New(WRx { channel, number })),
            reply => Ok(Made::Refused(reply)),
        }
    }

    /// Writes a value and notifies the receivers. If there are none, the value is returned.
    pub fn w_send<R: Wait>(
        &self,
        rt: &R,
        pass: &mut Pass<V>,
        sender: &WTx,
        value: V,
    ) -> Result<WReply<V>, DeskFault>
//~         ensures { IsAnsweredW self.now.specs pass.old pass.new sender.now.channel (WCall.Send sender.now.number value) result }
    {
        self.w_call(rt, pass, sender.channel, WCall::Send(sender.number, value))
    }

    /// Writes a value, notifies the receivers, and returns the previous value.
    pub fn w_send_replace<R: Wait>(
        &self,
        rt: &R,
        pass: &mut Pass<V>,
        sender: &WTx,
        value: V,
    ) -> Result<WReply<V>, DeskFault>
//~         ensures { IsAnsweredW self.now.specs pass.old pass.new sender.now.channel (WCall.SendReplace sender.now.number value) result }
    {
        self.w_call(
            rt,
            pass,
            sender.channel,
            WCall::SendReplace(sender.number, value),
        )
    }

    /// Makes a receiver that has seen the value.
    pub fn w_subscribe<R: Wait>(
        &self,
        rt: &R,
        pass: &mut Pass<V>,
        sender: &WTx,
    ) -> Result<Made<WRx, WReply<V>>, DeskFault>
//~         ensures { MakesWRx self.now.specs pass.old pass.new sender.now.channel (WCall.Subscribe sender.now.number) result }
    {
        self.w_new_receiver(rt, pass, sender.channel, WCall::Subscribe(sender.number))
    }

    /// Makes another sender.
    pub fn w_clone_sender<R: Wait>(
        &self,
        rt: &R,
        pass: &mut Pass<V>,
        sender: &WTx,
    ) -> Result<Made<WTx, WReply<V>>, DeskFault>
//~         ensures { MakesWTx self.now.specs pass.old pass.new sender.now.channel (WCall.CloneSender sender.now.number) result }
    {
        let channel = sender.channel;
        match self.w_call(rt, pass, channel, WCall::CloneSender(sender.number))? {
            WReply::New(number) => Ok(Made::New(WTx { channel, number })),
            reply => Ok(Made::Refused(reply)),
        }
    }

    /// Makes a receiver that has seen what this one has seen.
    pub fn w_clone_receiver<R: Wait>(
        &self,
        rt: &R,
        pass: &mut Pass<V>,
        receiver: &WRx,
    ) -> Result<Made<WRx, WReply<V>>, DeskFault>
//~         ensures { MakesWRx self.now.specs pass.old pass.new receiver.now.channel (WCall.CloneReceiver receiver.now.number) result }
    {
        self.w_new_receiver(
            rt,
            pass,
            receiver.channel,
            WCall::CloneReceiver(receiver.number),
        )
    }

    /// Reads the value.
    pub fn w_borrow<R: Wait>(
        &self,
        rt: &R,
        pass: &mut Pass<V>,
        receiver: &WRx,
    ) -> Result<WReply<V>, DeskFault>
//~         ensures { IsAnsweredW self.now.specs pass.old pass.new receiver.now.channel (WCall.Borrow receiver.now.number) result }
    {
        self.w_call(rt, pass, receiver.channel, WCall::Borrow(receiver.number))
    }

    /// Reads the value, as a sender.
    pub fn w_peek<R: Wait>(
        &self,
        rt: &R,
        pass: &mut Pass<V>,
        sender: &WTx,
    ) -> Result<WReply<V>, DeskFault>
//~         ensures { IsAnsweredW self.now.specs pass.old pass.new sender.now.channel (WCall.Borrow sender.now.number) result }
    {
        self.w_call(rt, pass, sender.channel, WCall::Borrow(sender.number))
    }

    /// Reads the value, and marks it as seen by the receiver.
    pub fn w_update<R: Wait>(
        &self,
        rt: &R,
        pass: &mut Pass<V>,
        receiver: &WRx,
    ) -> Result<WReply<V>, DeskFault>
//~         ensures { IsAnsweredW self.now.specs pass.old pass.new receiver.now.channel (WCall.Update receiver.now.number) result }
    {
        self.w_call(rt, pass, receiver.channel, WCall::Update(receiver.number))
    }

    /// Checks if the receiver has not seen the value.
    pub fn w_has_changed<R: Wait>(
        &self,
        rt: &R,
        pass: &mut Pass<V>,
        receiver: &WRx,
    ) -> Result<WReply<V>, DeskFault>
//~         ensures { IsAnsweredW self.now.specs pass.old pass.new receiver.now.channel (WCall.HasChanged receiver.now.number) result }
    {
        self.w_call(
            rt,
            pass,
            receiver.channel,
            WCall::HasChanged(receiver.number),
        )
    }

    /// Waits for a value that the receiver has not seen, and marks it as seen.
    pub fn w_changed<R: Wait>(
        &self,
        rt: &R,
        pass: &mut Pass<V>,
        receiver: &WRx,
    ) -> Result<WReply<V>, DeskFault>
//~         ensures answered { IsAnsweredW self.now.specs pass.old pass.new receiver.now.channel (WCall.Changed receiver.now.number) result }
//~         ensures waited { ¬ IsErrOf result DeskFault.Waits }
    {
        self.w_wait(rt, pass, receiver.channel, WCall::Changed(receiver.number))
    }

    /// Marks the value as not seen by the receiver.
    pub fn w_mark_changed<R: Wait>(
        &self,
        rt: &R,
        pass: &mut Pass<V>,
        receiver: &WRx,
    ) -> Result<WReply<V>, DeskFault>
//~         ensures { IsAnsweredW self.now.specs pass.old pass.new receiver.now.channel (WCall.MarkChanged receiver.now.number) result }
    {
        self.w_call(
            rt,
            pass,
            receiver.channel,
            WCall::MarkChanged(receiver.number),
        )
    }

    /// Marks the value as seen by the receiver.
    pub fn w_mark_unchanged<R: Wait>(
        &self,
        rt: &R,
        pass: &mut Pass<V>,
        receiver: &WRx,
    ) -> Result<WReply<V>, DeskFault>
//~         ensures { IsAnsweredW self.now.specs pass.old pass.new receiver.now.channel (WCall.MarkUnchanged receiver.now.number) result }
    {
        self.w_call(
            rt,
            pass,
            receiver.channel,
            WCall::MarkUnchanged(receiver.number),
        )
    }

    /// Drops a sender. At a fault the sender is returned.
    pub fn w_drop_sender<R: Wait>(
        &self,
        rt: &R,
        pass: &mut Pass<V>,
        sender: WTx,
    ) -> Result<WReply<V>, (DeskFault, WTx)>
//~         ensures { IsDropping self.now.specs pass.old pass.new sender.channel (ChanCall.W (WCall.DropHandle sender.number)) (λ r. ChanReply.W r) sender result }
    {
        match self.w_call(rt, pass, sender.channel, WCall::DropHandle(sender.number)) {
            Ok(reply) => Ok(reply),
            Err(fault) => Err((fault, sender)),
        }
    }

    /// Drops a receiver. At a fault the receiver is returned.
    pub fn w_drop_receiver<R: Wait>(
        &self,
        rt: &R,
        pass: &mut Pass<V>,
        receiver: WRx,
    ) -> Result<WReply<V>, (DeskFault, WRx)>
//~         ensures { IsDropping self.now.specs pass.old pass.new receiver.channel
//~             (ChanCall.W (WCall.DropHandle receiver.number)) (λ r. ChanReply.W r) receiver result }
    {
        match self.w_call(
            rt,
            pass,
            receiver.channel,
            WCall::DropHandle(receiver.number),
        ) {
            Ok(reply) => Ok(reply),
            Err(fault) => Err((fault, receiver)),
        }
    }

    /// Returns how many receivers are alive.
    pub fn w_receiver_count<R: Wait>(
        &self,
        rt: &R,
        pass: &mut Pass<V>,
        sender: &WTx,
    ) -> Result<WReply<V>, DeskFault>
//~         ensures { IsAnsweredW self.now.specs pass.old pass.new sender.now.channel (WCall.ReceiverCount sender.now.number) result }
    {
        self.w_call(
            rt,
            pass,
            sender.channel,
            WCall::ReceiverCount(sender.number),
        )
    }

    /// Checks if no receiver is alive.
    pub fn w_is_closed<R: Wait>(
        &self,
        rt: &R,
        pass: &mut Pass<V>,
        sender: &WTx,
    ) -> Result<WReply<V>, DeskFault>
//~         ensures { IsAnsweredW self.now.specs pass.old pass.new sender.now.channel (WCall.IsClosed sender.now.number) result }
    {
        self.w_call(rt, pass, sender.channel, WCall::IsClosed(sender.number))
    }

    /// Waits until no receiver is alive.
    pub fn w_closed<R: Wait>(
        &self,
        rt: &R,
        pass: &mut Pass<V>,
        sender: &WTx,
    ) -> Result<WReply<V>, DeskFault>
//~         ensures answered { IsAnsweredW self.now.specs pass.old pass.new sender.now.channel (WCall.AwaitClosed sender.now.number) result }
//~         ensures waited { ¬ IsErrOf result DeskFault.Waits }
    {
        self.w_wait(rt, pass, sender.channel, WCall::AwaitClosed(sender.number))
    }
}
