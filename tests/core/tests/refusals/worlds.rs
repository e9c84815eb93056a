//! Worlds: a machine of its own, and a book of one.

use crate::books::play_book;
use crate::machines::play_machine;
use crate::met::say;
use crate::readings::Shows;
use proved::rw_broadcast::BCall;
use proved::rw_journal::Book;
use proved::rw_watch::WCall;
use proved::rw_world::{ChanCall, RowCall, World};
use std::fmt::Debug;

/// A call on the channel of this number.
const fn on(channel: u32, call: ChanCall<u64>) -> RowCall<ChanCall<u64>> {
    RowCall { channel, call }
}

/// What is called on a world: on its channel 0, the broadcast, and on its channel 1, the watch.
static CALLS: [RowCall<ChanCall<u64>>; 6] = [
    on(0, ChanCall::B(BCall::Subscribe(0))),
    on(1, ChanCall::W(WCall::Subscribe(0))),
    on(0, ChanCall::B(BCall::Send(0, 4))),
    on(1, ChanCall::W(WCall::Send(0, 5))),
    on(0, ChanCall::B(BCall::TryRecv(2))),
    on(1, ChanCall::W(WCall::Update(2))),
];

/// What is called on a book, call by call. The last call names no channel.
static SINGLE: [RowCall<ChanCall<u64>>; 7] = [
    on(0, ChanCall::B(BCall::Send(0, 1))),
    on(1, ChanCall::W(WCall::Send(0, 8))),
    on(0, ChanCall::B(BCall::Recv(1))),
    on(0, ChanCall::B(BCall::Recv(1))),
    on(1, ChanCall::W(WCall::Subscribe(0))),
    on(0, ChanCall::B(BCall::Subscribe(0))),
    on(2, ChanCall::B(BCall::Send(0, 1))),
];

/// What is called on a book as a list, by the actors 0, 1 and 2.
static LISTED: [RowCall<ChanCall<u64>>; 3] = [
    on(0, ChanCall::B(BCall::Send(0, 5))),
    on(1, ChanCall::W(WCall::Send(0, 5))),
    on(0, ChanCall::B(BCall::CloneSender(0))),
];

/// Plays a machine, and then a book of another one. Both are played here, so that one call names the world.
fn play_both<M: Shows>(calls: &[M::Call], single: &[M::Call], listed: &[(u32, M::Call)])
where
    M::Reply: Debug,
{
    say!("a world");
    play_machine::<M>(calls);
    say!("a book");
    play_book::<Book<M>>(single, listed)
}

/// Plays all of these.
pub fn play() {
    let listed = [(0, LISTED[0]), (1, LISTED[1]), (2, LISTED[2])];
    play_both::<World<u64>>(&CALLS, &SINGLE, &listed)
}
