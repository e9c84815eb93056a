//! The calls of broadcast channels, by handles.
// From crates/rw_desk/src/broadcast_calls.rt, with its contracts as comments. //+

//~ ghost use Rattle.std.specs.Prelude.{IsErrOf};
//~ ghost use Rattle.rw_desk.specs.Answers.{IsAnsweredB, IsDropping, MakesBRx, MakesBTx};

use crate::source::rw_desk::desk::Desk;
use crate::source::rw_desk::faults::DeskFault;
use crate::source::rw_desk::handles::{BRx, BTx};
use crate::source::rw_desk::made::Made;
use crate::source::rw_desk::pass::Pass;
use crate::source::rw_broadcast::{BCall, BReply};
use crate::source::rw_law::Payload;
use crate::source::rw_world::{ChanCall, ChanReply};
use crate::shim::sync::Wait;

impl<V: Payload> Desk<V> {
    /// Makes a call of a broadcast channel.
    pub(crate) fn b_call<R: Wait>(
        &self,
        rt: &R,
        pass: &mut Pass<V>,
        channel: u32,
        call: BCall<V>,
    ) -> Result<BReply<V>, DeskFault>
//~         ensures { IsAnsweredB self.now.specs pass.old pass.new channel call result }
    {
        match self.call(rt, pass, channel, ChanCall::B(call))? {
            ChanReply::B(reply) => Ok(reply),
            _ => unreachable!(),
        }
    }

    /// Makes a call of a broadcast channel, and blocks while its reply would be `Waits`.
    pub(crate) fn b_wait<R: Wait>(
        &self,
        rt: &R,
        pass: &mut Pass<V>,
        channel: u32,
        call: BCall<V>,
    ) -> Result<BReply<V>, DeskFault>
//~         ensures answered { IsAnsweredB self.now.specs pass.old pass.new channel call result }
//~         ensures waited { ¬ IsErrOf result DeskFault.Waits }
    {
        match self.wait_call(rt, pass, channel, ChanCall::B(call))? {
            ChanReply::B(reply) => Ok(reply),
            _ => unreachable!(),
        }
    }

    /// Makes a receiver, by this call of a broadcast channel.
    fn b_new_receiver<R: Wait>(
        &self,
        rt: &R,
        pass: &mut Pass<V>,
        channel: u32,
        call: BCall<V>,
    ) -> Result<Made<BRx, BReply<V>>, DeskFault>
//~         ensures { MakesBRx self.now.specs pass.old pass.new channel call result }
    {
        match self.b_call(rt, pass, channel, call)? {
            BReply::New(number) => Ok(Made::New(BRx { channel, number })),
            reply => Ok(Made::Refused(reply)),
        }
    }

    /// Sends a value to all live receivers.
    pub fn b_send<R: Wait>(
        &self,
        rt: &R,
        pass: &mut Pass<V>,
        sender: &BTx,
        value: V,
    ) -> Result<BReply<V>, DeskFault>
//~         ensures { IsAnsweredB self.now.specs pass.old pass.new sender.now.channel (BCall.Send sender.now.number value) result }
    {
        self.b_call(rt, pass, sender.channel, BCall::Send(sender.number, value))
    }

    /// Makes a receiver that receives the values sent from now on.
    pub fn b_subscribe<R: Wait>(
        &self,
        rt: &R,
        pass: &mut Pass<V>,
        sender: &BTx,
    ) -> Result<Made<BRx, BReply<V>>, DeskFault>
//~         ensures { MakesBRx self.now.specs pass.old pass.new sender.now.channel (BCall.Subscribe sender.now.number) result }
    {
        self.b_new_receiver(rt, pass, sender.channel, BCall::Subscribe(sender.number))
    }

    /// Makes another sender.
    pub fn b_clone_sender<R: Wait>(
        &self,
        rt: &R,
        pass: &mut Pass<V>,
        sender: &BTx,
    ) -> Result<Made<BTx, BReply<V>>, DeskFault>
//~         ensures { MakesBTx self.now.specs pass.old pass.new sender.now.channel (BCall.CloneSender sender.now.number) result }
    {
        let channel = sender.channel;
        match self.b_call(rt, pass, channel, BCall::CloneSender(sender.number))? {
            BReply::New(number) => Ok(Made::New(BTx { channel, number })),
            reply => Ok(Made::Refused(reply)),
        }
    }

    /// Makes a receiver from another. It receives the values sent from now on.
    pub fn b_resubscribe<R: Wait>(
        &self,
        rt: &R,
        pass: &mut Pass<V>,
        receiver: &BRx,
    ) -> Result<Made<BRx, BReply<V>>, DeskFault>
//~         ensures { MakesBRx self.now.specs pass.old pass.new receiver.now.channel (BCall.Resubscribe receiver.now.number) result }
    {
        self.b_new_receiver(
            rt,
            pass,
            receiver.channel,
            BCall::Resubscribe(receiver.number),
        )
    }

    /// Receives a value, if there is one.
    pub fn b_try_recv<R: Wait>(
        &self,
        rt: &R,
        pass: &mut Pass<V>,
        receiver: &BRx,
    ) -> Result<BReply<V>, DeskFault>
//~         ensures { IsAnsweredB self.now.specs pass.old pass.new receiver.now.channel (BCall.TryRecv receiver.now.number) result }
    {
        self.b_call(rt, pass, receiver.channel, BCall::TryRecv(receiver.number))
    }

    /// Receives a value. If there is none yet, it blocks until there is one or the channel is closed.
    pub fn b_recv<R: Wait>(
        &self,
        rt: &R,
        pass: &mut Pass<V>,
        receiver: &BRx,
    ) -> Result<BReply<V>, DeskFault>
//~         ensures answered { IsAnsweredB self.now.specs pass.old pass.new receiver.now.channel (BCall.Recv receiver.now.number) result }
//~         ensures waited { ¬ IsErrOf result DeskFault.Waits }
    {
        self.b_wait(rt, pass, receiver.channel, BCall::Recv(receiver.number))
    }

    /// Drops a sender. At a fault the sender is returned.
    pub fn b_drop_sender<R: Wait>(
        &self,
        rt: &R,
        pass: &mut Pass<V>,
        sender: BTx,
    ) -> Result<BReply<V>, (DeskFault, BTx)>
//~         ensures { IsDropping self.now.specs pass.old pass.new sender.channel (ChanCall.B (BCall.DropHandle sender.number)) (λ r. ChanReply.B r) sender result }
    {
        match self.b_call(rt, pass, sender.channel, BCall::DropHandle(sender.number)) {
            Ok(reply) => Ok(reply),
            Err(fault) => Err((fault, sender)),
        }
    }

    /// Drops a receiver. At a fault the receiver is returned.
    pub fn b_drop_receiver<R: Wait>(
        &self,
        rt: &R,
        pass: &mut Pass<V>,
        receiver: BRx,
    ) -> Result<BReply<V>, (DeskFault, BRx)>
//~         ensures { IsDropping self.now.specs pass.old pass.new receiver.channel
//~             (ChanCall.B (BCall.DropHandle receiver.number)) (λ r. ChanReply.B r) receiver result }
    {
        match self.b_call(
            rt,
            pass,
            receiver.channel,
            BCall::DropHandle(receiver.number),
        ) {
            Ok(reply) => Ok(reply),
            Err(fault) => Err((fault, receiver)),
        }
    }

    /// Returns how many values are queued.
    pub fn b_sender_len<R: Wait>(
        &self,
        rt: &R,
        pass: &mut Pass<V>,
        sender: &BTx,
    ) -> Result<BReply<V>, DeskFault>
//~         ensures { IsAnsweredB self.now.specs pass.old pass.new sender.now.channel (BCall.SenderLen sender.now.number) result }
    {
        self.b_call(rt, pass, sender.channel, BCall::SenderLen(sender.number))
    }

    /// Returns how many receivers are alive.
    pub fn b_receiver_count<R: Wait>(
        &self,
        rt: &R,
        pass: &mut Pass<V>,
        sender: &BTx,
    ) -> Result<BReply<V>, DeskFault>
//~         ensures { IsAnsweredB self.now.specs pass.old pass.new sender.now.channel (BCall.ReceiverCount sender.now.number) result }
    {
        self.b_call(
            rt,
            pass,
            sender.channel,
            BCall::ReceiverCount(sender.number),
        )
    }

    /// Returns how many values the receiver has yet to receive.
    pub fn b_receiver_len<R: Wait>(
        &self,
        rt: &R,
        pass: &mut Pass<V>,
        receiver: &BRx,
    ) -> Result<BReply<V>, DeskFault>
//~         ensures { IsAnsweredB self.now.specs pass.old pass.new receiver.now.channel (BCall.ReceiverLen receiver.now.number) result }
    {
        self.b_call(
            rt,
            pass,
            receiver.channel,
            BCall::ReceiverLen(receiver.number),
        )
    }
}
