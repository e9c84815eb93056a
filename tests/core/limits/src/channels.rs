//! Channels, without a journal.

use proved::Global;
use proved::rw_broadcast::{BCall, BReply};
use proved::rw_law::Reversible;
use proved::rw_watch::{WCall, WReply};
use proved::rw_world::{
    Chan, ChanCall, ChanReply, OpenFault, Spec, World, open, open_channel, refusal_of,
};

/// Opens a channel.
pub fn channel(spec: Spec<u64>) -> Chan<u64> {
    open_channel(Global, &spec).unwrap()
}

/// Makes a call, for which there is memory.
fn apply(channel: &mut Chan<u64>, call: ChanCall<u64>) -> ChanReply<u64> {
    channel.ready(1).unwrap();
    channel.apply(&call).0
}

fn applied(channel: &mut Chan<u64>, call: BCall<u64>) -> BReply<u64> {
    match apply(channel, ChanCall::B(call)) {
        ChanReply::B(reply) => reply,
        reply => panic!("{reply:?}"),
    }
}

/// Opens a channel of this capacity, which retains as many values.
pub fn capacity(size: u64) -> bool {
    let spec = Spec::Broadcast(size as u32);
    if let Some(fault) = refusal_of(&[spec]) {
        assert_eq!(fault, OpenFault::BadCapacity(0));
        return false;
    }
    let mut channel = channel(spec);
    let retained = size.next_power_of_two();
    for value in 0..=retained {
        assert_eq!(
            applied(&mut channel, BCall::Send(0, value)),
            BReply::Sent(1)
        );
    }
    assert_eq!(applied(&mut channel, BCall::TryRecv(1)), BReply::Lagged(1));
    assert_eq!(
        applied(&mut channel, BCall::SenderLen(0)),
        BReply::Count(retained)
    );
    true
}

/// Receives as many values as a ring retains.
pub fn unread(size: u64) -> bool {
    let mut channel = channel(Spec::Broadcast(65_536));
    for value in 0..size {
        assert_eq!(
            applied(&mut channel, BCall::Send(0, value)),
            BReply::Sent(1)
        );
    }
    for value in 0..size {
        assert_eq!(
            applied(&mut channel, BCall::TryRecv(1)),
            BReply::Value(value)
        );
    }
    applied(&mut channel, BCall::TryRecv(1)) == BReply::Empty
}

/// Creates handles until there are as many.
pub fn broadcast_handles(size: u64) -> bool {
    let mut channel = channel(Spec::Broadcast(2));
    for number in 2..size - 1 {
        let created = applied(&mut channel, BCall::Subscribe(0));
        assert_eq!(created, BReply::New(number as u32));
    }
    match applied(&mut channel, BCall::CloneSender(0)) {
        BReply::New(number) => u64::from(number) == size - 1,
        reply => {
            assert_eq!(reply, BReply::TooManyHandles);
            false
        }
    }
}

/// Creates handles of a watch until there are as many.
pub fn watch_handles(size: u64) -> bool {
    let mut channel = channel(Spec::Watch(7));
    for number in 2..size - 1 {
        let created = apply(&mut channel, ChanCall::W(WCall::CloneReceiver(1)));
        assert_eq!(created, ChanReply::W(WReply::New(number as u32)));
    }
    match apply(&mut channel, ChanCall::W(WCall::Subscribe(0))) {
        ChanReply::W(WReply::New(number)) => u64::from(number) == size - 1,
        reply => {
            assert_eq!(reply, ChanReply::W(WReply::TooManyHandles));
            false
        }
    }
}

/// Opens a world of `size` channels.
pub fn worlds(size: u64) -> bool {
    let specs = vec![Spec::Watch(7u64); size as usize];
    let opened: Result<World<u64>, OpenFault> = open(Global, &specs);
    match opened {
        Ok(_) => true,
        Err(fault) => {
            assert_eq!(fault, OpenFault::TooManyChannels);
            false
        }
    }
}
