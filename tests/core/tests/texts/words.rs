//! Every word of the two tables, read and written, and the faults in their order.

use proved::rw_broadcast::{BCall, BReply};
use proved::rw_law::{Entry, Payload, Reversible};
use proved::rw_watch::{WCall, WReply};
use proved::rw_words::{WordFault, read_call, read_reply, write_entry};
use proved::rw_world::ChannelKind::{self, Broadcast, Watch};
use proved::rw_world::{ChanCall, ChanPatch, ChanReply, RowCall, World};
use std::fmt::Debug;

static BROADCAST_CALLS: [(&[u8], BCall<u64>); 13] = [
    (b"send 0 7", BCall::Send(0, 7)),
    (b"subscribe 0", BCall::Subscribe(0)),
    (b"clone-sender 0", BCall::CloneSender(0)),
    (b"resubscribe 1", BCall::Resubscribe(1)),
    (b"try-recv 1", BCall::TryRecv(1)),
    (b"recv 1", BCall::Recv(1)),
    (b"drop 4294967295", BCall::DropHandle(4_294_967_295)),
    (b"sender-len 0", BCall::SenderLen(0)),
    (b"receiver-count 0", BCall::ReceiverCount(0)),
    (b"receiver-len 1", BCall::ReceiverLen(1)),
    (b"downgrade 0", BCall::Downgrade(0)),
    (b"upgrade 2", BCall::Upgrade(2)),
    (b"clone-weak 2", BCall::CloneWeak(2)),
];

static WATCH_CALLS: [(&[u8], WCall<u64>); 17] = [
    (b"send 0 7", WCall::Send(0, 7)),
    (
        b"send-replace 0 18446744073709551615",
        WCall::SendReplace(0, u64::MAX),
    ),
    (
        b"modify 0 5 yes",
        WCall::Modify {
            told: true,
            handle: 0,
            value: 5,
        },
    ),
    (
        b"modify 0 5 no",
        WCall::Modify {
            told: false,
            handle: 0,
            value: 5,
        },
    ),
    (b"subscribe 0", WCall::Subscribe(0)),
    (b"clone-sender 0", WCall::CloneSender(0)),
    (b"clone-receiver 1", WCall::CloneReceiver(1)),
    (b"borrow 0", WCall::Borrow(0)),
    (b"update 1", WCall::Update(1)),
    (b"has-changed 1", WCall::HasChanged(1)),
    (b"changed 1", WCall::Changed(1)),
    (b"mark-changed 1", WCall::MarkChanged(1)),
    (b"mark-unchanged 1", WCall::MarkUnchanged(1)),
    (b"drop 1", WCall::DropHandle(1)),
    (b"receiver-count 0", WCall::ReceiverCount(0)),
    (b"is-closed 0", WCall::IsClosed(0)),
    (b"closed 0", WCall::AwaitClosed(0)),
];

static BROADCAST_REPLIES: [(&[u8], BReply<u64>); 14] = [
    (b"sent 2", BReply::Sent(2)),
    (b"no-receivers 9", BReply::NoReceivers(9)),
    (b"value 7", BReply::Value(7)),
    (b"lagged 18446744073709551615", BReply::Lagged(u64::MAX)),
    (b"empty", BReply::Empty),
    (b"closed", BReply::Closed),
    (b"new 4294967295", BReply::New(4_294_967_295)),
    (b"dropped", BReply::Dropped),
    (b"count 4294967296", BReply::Count(4_294_967_296)),
    (b"unknown", BReply::Unknown),
    (b"gone", BReply::Gone),
    (b"wrong-kind", BReply::WrongKind),
    (b"too-many-handles", BReply::TooManyHandles),
    (b"no-sender", BReply::NoSender),
];

static WATCH_REPLIES: [(&[u8], WReply<u64>); 17] = [
    (b"stored", WReply::Stored),
    (b"no-receivers 2", WReply::NoReceivers(2)),
    (b"old 1", WReply::Old(1)),
    (b"told yes", WReply::Told(true)),
    (b"told no", WReply::Told(false)),
    (b"new 2", WReply::New(2)),
    (b"value 8", WReply::Value(8)),
    (b"flag yes", WReply::Flag(true)),
    (b"flag no", WReply::Flag(false)),
    (b"closed", WReply::Closed),
    (b"done", WReply::Done),
    (b"count 0", WReply::Count(0)),
    (b"dropped", WReply::Dropped),
    (b"unknown", WReply::Unknown),
    (b"gone", WReply::Gone),
    (b"wrong-kind", WReply::WrongKind),
    (b"too-many-handles", WReply::TooManyHandles),
];

/// Makes an entry of actor 2 on channel 3 with stamp 1.
fn entry_of<V: Copy>(call: ChanCall<V>, reply: ChanReply<V>) -> Entry<World<V>> {
    Entry {
        actor: 2,
        stamp: 1,
        call: RowCall { channel: 3, call },
        reply,
        patch: ChanPatch::NoChannel,
    }
}

/// Returns the line of an entry, if its reply is one that is recorded.
fn line_of<'o, V: Payload>(entry: &Entry<World<V>>, out: &'o mut [u8; 256]) -> Option<&'o [u8]> {
    if World::<V>::waits(&entry.reply) || World::<V>::strays(&entry.reply) {
        return None;
    }
    let length = write_entry(entry, out);
    out.get(..length)
}

/// Asserts that an entry has this line.
fn is_written<V: Payload>(entry: Entry<World<V>>, want: &[u8]) {
    let mut out = [0u8; 256];
    let line = line_of(&entry, &mut out);
    assert_eq!(line, Some(want));
}

/// Asserts that the call is written as this text, and that the call read from the text is written so too.
fn is_call<V: Payload>(kind: ChannelKind, text: &[u8], call: ChanCall<V>) {
    let read = read_call(kind, text).unwrap();
    let line = [b"1 2 3 ".as_slice(), text, b" = done"].concat();
    let reply = ChanReply::W(WReply::Done);
    is_written(entry_of(call, reply), &line);
    is_written(entry_of(read, reply), &line);
}

#[test]
fn reads_and_writes_every_call() {
    for (text, call) in &BROADCAST_CALLS {
        is_call(Broadcast, text, ChanCall::B(*call));
    }
    for (text, call) in &WATCH_CALLS {
        is_call(Watch, text, ChanCall::W(*call));
    }
}

/// Asserts that this text is read as the reply, and that the reply is written as the text.
fn is_reply<V: Payload + PartialEq + Debug>(kind: ChannelKind, text: &[u8], reply: ChanReply<V>) {
    assert_eq!(read_reply(kind, text), Ok(reply));
    let line = [b"1 2 3 recv 1 = ".as_slice(), text].concat();
    is_written(entry_of(ChanCall::B(BCall::Recv(1)), reply), &line);
}

#[test]
fn reads_and_writes_every_reply() {
    for (text, reply) in &BROADCAST_REPLIES {
        is_reply(Broadcast, text, ChanReply::B(*reply));
    }
    for (text, reply) in &WATCH_REPLIES {
        is_reply(Watch, text, ChanReply::W(*reply));
    }
}

#[test]
fn longest_line_has_123_bytes() {
    let entry = Entry {
        actor: u32::MAX,
        stamp: u64::MAX,
        call: RowCall {
            channel: u32::MAX,
            call: ChanCall::W(WCall::SendReplace(u32::MAX, u64::MAX)),
        },
        reply: ChanReply::W(WReply::NoReceivers(u64::MAX)),
        patch: ChanPatch::NoChannel,
    };
    let want =
        b"18446744073709551615 4294967295 4294967295 send-replace 4294967295 18446744073709551615 = no-receivers 18446744073709551615";
    assert_eq!(want.len(), 123);
    is_written(entry, want);
}

/// Returns the fault of the words of a call.
fn fault_of_call<V: Payload>(kind: ChannelKind, text: &[u8]) -> Option<WordFault> {
    read_call::<V>(kind, text).err()
}

/// The kind of the channel, the words of a call, and their fault.
static CALL_FAULTS: [(ChannelKind, &[u8], WordFault); 25] = [
    (Broadcast, b"", WordFault::WrongWord),
    (Broadcast, b" send 0 1", WordFault::WrongWord),
    (Broadcast, b"sends 0 07", WordFault::WrongWord),
    (Broadcast, b"changed 1", WordFault::WrongWord),
    (Watch, b"downgrade 0", WordFault::WrongWord),
    (Broadcast, b"downgraded 0", WordFault::WrongWord),
    (Broadcast, b"upgrade", WordFault::BadArguments),
    (Broadcast, b"clone-weak 0 1", WordFault::BadArguments),
    (Watch, b"recv 1", WordFault::WrongWord),
    (Watch, b"recv 4294967296 x", WordFault::WrongWord),
    (Broadcast, b"send", WordFault::BadArguments),
    (Broadcast, b"send ", WordFault::BadArguments),
    (Broadcast, b"send 0", WordFault::BadArguments),
    (Broadcast, b"send 0 07", WordFault::BadArguments),
    (Broadcast, b"send 00 7", WordFault::BadArguments),
    (Broadcast, b"send 0  7", WordFault::BadArguments),
    (Broadcast, b"send 0 7 ", WordFault::BadArguments),
    (Broadcast, b"recv 1 1", WordFault::BadArguments),
    (Broadcast, b"recv r", WordFault::BadArguments),
    (
        Broadcast,
        b"send 4294967296 18446744073709551616",
        WordFault::BadArguments,
    ),
    (Watch, b"modify 4294967296 7 maybe", WordFault::BadArguments),
    (Watch, b"modify 0 7", WordFault::BadArguments),
    (Broadcast, b"recv 4294967296", WordFault::HandleTooLarge),
    (
        Broadcast,
        b"send 18446744073709551615 7",
        WordFault::HandleTooLarge,
    ),
    (Watch, b"modify 4294967296 7 no", WordFault::HandleTooLarge),
];

#[test]
fn names_the_first_fault_of_a_call() {
    for (kind, text, fault) in &CALL_FAULTS {
        assert_eq!(fault_of_call::<u64>(*kind, text), Some(*fault));
    }
}

/// Returns the fault of the words of a reply.
fn fault_of_reply<V: Payload>(kind: ChannelKind, text: &[u8]) -> Option<WordFault> {
    read_reply::<V>(kind, text).err()
}

/// The kind of the channel, the words of a reply, and their fault.
static REPLY_FAULTS: [(ChannelKind, &[u8], WordFault); 12] = [
    (Broadcast, b"", WordFault::WrongWord),
    (Broadcast, b"waits", WordFault::WrongWord),
    (Watch, b"waits", WordFault::WrongWord),
    (Broadcast, b"stored", WordFault::WrongWord),
    (Watch, b"sent 1", WordFault::WrongWord),
    (Watch, b"no-sender", WordFault::WrongWord),
    (Broadcast, b"dropped ", WordFault::BadArguments),
    (Broadcast, b"sent", WordFault::BadArguments),
    (Broadcast, b"value 07", WordFault::BadArguments),
    (Watch, b"flag maybe", WordFault::BadArguments),
    (Broadcast, b"new 4294967296 ", WordFault::BadArguments),
    (Broadcast, b"new 4294967296", WordFault::HandleTooLarge),
];

#[test]
fn names_the_first_fault_of_a_reply() {
    for (kind, text, fault) in &REPLY_FAULTS {
        assert_eq!(fault_of_reply::<u64>(*kind, text), Some(*fault));
    }
}
