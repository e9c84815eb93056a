//! Channels whose calls aren't recorded: what the window of a channel needs of them.
// From crates/rw_recording/src/channels.rt, with its contracts as comments. //+

//~ ghost use Rattle.std.specs.Prelude.{◌≡◌, IfOk, OnOk, OnErr};
//~ ghost use Rattle.rw_law.specs.Journal.{after_all};
//~ ghost use Rattle.rw_world.specs.Machines.{of_chan};
//~ ghost use Rattle.rw_recording.specs.Kept.{asks, entries_from, lag_in, sent_in};
//~ ghost use Rattle.rw_recording.specs.NoLeads.{live_in, retained_in};
//~ ghost use Rattle.rw_recording.specs.Questions.{alive_in, unread_in};

use crate::source::rw_recording::recording::RecordedCall;
use crate::source::rw_broadcast::BCall;
use crate::source::rw_handles::Kind;
use crate::source::rw_journal::CallForm;
use crate::source::rw_law::{MOST_WEIGHT, NoMemory, Reversible};
use crate::source::rw_world::{Chan, ChanCall, ChanReply};

/// Makes a call that isn't recorded. At an error the channel shows what it showed.
pub(crate) fn make(
    channel: &mut Chan<u64>,
    call: &ChanCall<u64>,
) -> Result<ChanReply<u64>, NoMemory>
//~     ensures reply { IfOk result (λ reply. reply ≡ of_chan.reply_of (of_chan.shown channel.old) call.now) }
//~     ensures shown { OnOk result (of_chan.shown channel.new ≡ of_chan.next (of_chan.shown channel.old) call.now) }
//~     ensures same { OnErr result (of_chan.shown channel.new ≡ of_chan.shown channel.old) }
{
    if channel.weight() >= MOST_WEIGHT {
        return Err(NoMemory);
    }
    channel.ready(1)?;
    let (reply, _) = channel.apply(call);
    Ok(reply)
}

/// Makes recorded calls, one after another.
//~ #[tactic(auto, using(crate::proofs::Entries::one_more_made))]
pub(crate) fn make_all(channel: &mut Chan<u64>, calls: &[RecordedCall]) -> Result<(), NoMemory>
//~     ensures { OnOk result (of_chan.shown channel.new ≡ after_all of_chan (of_chan.shown channel.old) (entries_from (of_chan.shown channel.old) calls.now)) }
{
    for i in 0..calls.len() {
        let call = calls[i].call.to_call();
        let _reply = make(channel, &call)?;
    }
    Ok(())
}

/// Returns how many values were evicted before a live receiver of a broadcast had received them. It is 0 for any other handle.
pub(crate) fn lag_of(channel: &Chan<u64>, handle: u32) -> u64
//~     ensures { result ≡ lag_in (of_chan.shown channel.now) handle }
{
    match channel {
        Chan::Broadcast(machine) => machine.lag(handle).unwrap_or(0),
        Chan::Watch(_) => 0,
    }
}

/// Returns how many values were sent on a broadcast. It is 0 for a watch.
pub(crate) fn sent_on(channel: &Chan<u64>) -> u64
//~     ensures { result ≡ sent_in (of_chan.shown channel.now) }
{
    match channel {
        Chan::Broadcast(machine) => machine.sent(),
        Chan::Watch(_) => 0,
    }
}

/// Returns how many handles of this kind are alive.
pub(crate) fn alive_on(channel: &Chan<u64>, kind: Kind) -> u64
//~     ensures { result ≡ alive_in kind (of_chan.shown channel.now) }
{
    match channel {
        Chan::Broadcast(machine) => machine.alive(kind),
        Chan::Watch(machine) => machine.alive(kind),
    }
}

/// Returns how many handles are alive.
pub(crate) fn live_on(channel: &Chan<u64>) -> u64
//~     ensures { result ≡ live_in (of_chan.shown channel.now) }
{
    let _made = channel.made();
    let senders = alive_on(channel, Kind::Sender) + alive_on(channel, Kind::Weak);
    senders + alive_on(channel, Kind::Receiver)
}

/// Returns how many values a broadcast retains at most. It is 0 for a watch.
pub(crate) fn retained_on(channel: &Chan<u64>) -> u64
//~     ensures { result ≡ retained_in (of_chan.shown channel.now) }
{
    match channel {
        Chan::Broadcast(machine) => machine.capacity(),
        Chan::Watch(_) => 0,
    }
}

/// Returns how many values a live receiver of a broadcast has yet to receive.
pub(crate) fn unread_on(channel: &Chan<u64>, receiver: u32) -> Option<u64>
//~     ensures { result ≡ unread_in (of_chan.shown channel.now) receiver }
{
    match channel {
        Chan::Broadcast(machine) => machine.unread(receiver),
        Chan::Watch(_) => None,
    }
}

/// Whether the reply tells where a receiver of a broadcast is.
pub(crate) fn asks(call: &ChanCall<u64>) -> bool
//~     ensures { result ≡ asks call.now }
{
    matches!(
        call,
        ChanCall::B(BCall::TryRecv(_) | BCall::Recv(_) | BCall::ReceiverLen(_))
    )
}
