//! Comparing calls by the words of their values.
// From crates/rw_desk/src/same_calls.rt, with its contracts as comments. //+

//~ ghost use Rattle.std.specs.Prelude.{◌≡◌, ◌↔◌, IsTrue};
//~ ghost use Rattle.rw_desk.specs.CallWords as words;

use crate::source::rw_broadcast::BCall;
use crate::source::rw_law::Payload;
use crate::source::rw_watch::WCall;
use crate::source::rw_world::ChanCall;

/// Returns a broadcast's call with its value's word in place of the value.
fn broadcast_in_words<V: Payload>(call: &BCall<V>) -> BCall<u64>
//~     ensures words { result ≡ words.of_broadcast V.word_of call.now }
//~     ensures known { words.OfBroadcastValue V.is_value call.now }
{
    match call {
        BCall::Send(handle, value) => BCall::Send(*handle, value.word()),
        BCall::Subscribe(handle) => BCall::Subscribe(*handle),
        BCall::CloneSender(handle) => BCall::CloneSender(*handle),
        BCall::Resubscribe(handle) => BCall::Resubscribe(*handle),
        BCall::TryRecv(handle) => BCall::TryRecv(*handle),
        BCall::Recv(handle) => BCall::Recv(*handle),
        BCall::DropHandle(handle) => BCall::DropHandle(*handle),
        BCall::SenderLen(handle) => BCall::SenderLen(*handle),
        BCall::ReceiverCount(handle) => BCall::ReceiverCount(*handle),
        BCall::ReceiverLen(handle) => BCall::ReceiverLen(*handle),
        BCall::Downgrade(handle) => BCall::Downgrade(*handle),
        BCall::Upgrade(handle) => BCall::Upgrade(*handle),
        BCall::CloneWeak(handle) => BCall::CloneWeak(*handle),
    }
}

/// Returns a watch's call with its value's word in place of the value.
fn watch_in_words<V: Payload>(call: &WCall<V>) -> WCall<u64>
//~     ensures words { result ≡ words.of_watch V.word_of call.now }
//~     ensures known { words.OfWatchValue V.is_value call.now }
{
    match call {
        WCall::Send(handle, value) => WCall::Send(*handle, value.word()),
        WCall::SendReplace(handle, value) => WCall::SendReplace(*handle, value.word()),
        WCall::Modify {
            told,
            handle,
            value,
        } => WCall::Modify {
            told: *told,
            handle: *handle,
            value: value.word(),
        },
        WCall::Subscribe(handle) => WCall::Subscribe(*handle),
        WCall::CloneSender(handle) => WCall::CloneSender(*handle),
        WCall::CloneReceiver(handle) => WCall::CloneReceiver(*handle),
        WCall::Borrow(handle) => WCall::Borrow(*handle),
        WCall::Update(handle) => WCall::Update(*handle),
        WCall::HasChanged(handle) => WCall::HasChanged(*handle),
        WCall::Changed(handle) => WCall::Changed(*handle),
        WCall::MarkChanged(handle) => WCall::MarkChanged(*handle),
        WCall::MarkUnchanged(handle) => WCall::MarkUnchanged(*handle),
        WCall::DropHandle(handle) => WCall::DropHandle(*handle),
        WCall::ReceiverCount(handle) => WCall::ReceiverCount(*handle),
        WCall::IsClosed(handle) => WCall::IsClosed(*handle),
        WCall::AwaitClosed(handle) => WCall::AwaitClosed(*handle),
    }
}

/// Whether two calls of broadcasts are the same.
fn is_same_broadcast<V: Payload>(a: &BCall<V>, b: &BCall<V>) -> bool
//~     ensures { IsTrue result ↔ (a.now ≡ b.now) }
{
    broadcast_in_words(a) == broadcast_in_words(b)
}

/// Whether two calls of watches are the same.
fn is_same_watch<V: Payload>(a: &WCall<V>, b: &WCall<V>) -> bool
//~     ensures { IsTrue result ↔ (a.now ≡ b.now) }
{
    watch_in_words(a) == watch_in_words(b)
}

/// Whether two calls are the same.
pub(crate) fn is_same_call<V: Payload>(a: &ChanCall<V>, b: &ChanCall<V>) -> bool
//~     ensures { IsTrue result ↔ (a.now ≡ b.now) }
{
    match (a, b) {
        (ChanCall::B(a), ChanCall::B(b)) => is_same_broadcast(a, b),
        (ChanCall::W(a), ChanCall::W(b)) => is_same_watch(a, b),
        _ => false,
    }
}
