//! Copies of channels, and the last calls of one: a copy that is refused is tried again, and no call is lost by it.

use crate::met::{TRIES, made, refused, say};
use crate::refusing::paused;
use proved::rw_broadcast::BCall;
use proved::rw_journal::{CallForm, RecentCalls, StoredCall, TakeFault};
use proved::rw_law::{NoMemory, Reversible};
use proved::rw_watch::WCall;
use proved::rw_world::{Chan, ChanCall, ChanReply, Spec, open_channel};
use proved::{Global, Vec};

type ChannelCalls = RecentCalls<Chan<u64>, StoredCall<u64>>;

/// How many calls make a chunk full.
const CHUNK: usize = 2;

/// What is called: the receiver lags by one value at its first receive.
static CALLS: [ChanCall<u64>; 9] = [
    ChanCall::B(BCall::Send(0, 1)),
    ChanCall::B(BCall::Subscribe(0)),
    ChanCall::B(BCall::Send(0, 2)),
    ChanCall::B(BCall::Send(0, 3)),
    ChanCall::B(BCall::TryRecv(1)),
    ChanCall::B(BCall::TryRecv(1)),
    ChanCall::B(BCall::DropHandle(2)),
    ChanCall::B(BCall::TryRecv(1)),
    ChanCall::B(BCall::DropHandle(0)),
];

/// What a channel answers to these questions, each of which leaves it as it was.
fn asked(channel: &Chan<u64>, questions: [ChanCall<u64>; 2]) -> [ChanReply<u64>; 2] {
    paused(|| {
        let mut copy = channel.copied(Global).unwrap();
        copy.ready(2).unwrap();
        questions.map(|question| copy.apply(&question).0)
    })
}

/// Copies a channel after one call.
fn play_copy(spec: Spec<u64>, call: ChanCall<u64>, questions: [ChanCall<u64>; 2]) {
    let channel = paused(|| {
        let mut channel = open_channel(Global, &spec).unwrap();
        channel.ready(1).unwrap();
        channel.apply(&call);
        channel
    });
    let before = asked(&channel, questions);
    for _ in 0..TRIES {
        match channel.copied(Global) {
            Ok(copy) => {
                say!("a copy of {spec:?}: {:?}", asked(&copy, questions));
                paused(|| drop(copy));
                break;
            }
            Err(NoMemory) => refused(asked(&channel, questions) == before),
        }
    }
    paused(|| drop(channel))
}

/// Opens the last calls of a broadcast that retains two values.
fn open() -> Result<ChannelCalls, NoMemory> {
    made(|| {
        let channel = paused(|| open_channel(Global, &Spec::Broadcast(2)).unwrap());
        RecentCalls::open(Global, channel, CHUNK, 1)
    })
}

/// How many calls were dropped, and how many each chunk has.
fn counts(recent: &ChannelCalls) -> (u64, usize, usize) {
    let (older, newer) = recent.calls();
    (recent.dropped(), older.len(), newer.len())
}

fn take(recent: &mut ChannelCalls, call: ChanCall<u64>) -> Result<ChanReply<u64>, TakeFault> {
    let before = counts(recent);
    for _ in 0..TRIES {
        match recent.take(0, 0, call) {
            Ok(receipt) => return Ok(receipt.reply),
            Err(TakeFault::NoMemory) => refused(counts(recent) == before),
            Err(fault) => return Err(fault),
        }
    }
    Err(TakeFault::NoMemory)
}

/// Whether the stored calls are the last ones of all that were made so far.
fn are_the_last(recent: &ChannelCalls, made: usize) -> bool {
    let (older, newer) = recent.calls();
    let dropped = recent.dropped() as usize;
    let stored = older.iter().chain(newer).map(|noted| noted.call.to_call());
    stored.eq(CALLS[dropped..made].iter().copied())
}

/// The replies of the stored calls where they are made again, from the machine before them.
fn again(recent: &ChannelCalls) -> Vec<ChanReply<u64>> {
    paused(|| {
        let (older, newer) = recent.calls();
        let mut channel = recent.base().copied(Global).unwrap();
        channel.ready(CALLS.len() as u64).unwrap();
        let mut replies = Vec::new(Global);
        for noted in older.iter().chain(newer) {
            let (reply, _) = channel.apply(&noted.call.to_call());
            replies.push(reply).unwrap();
        }
        replies
    })
}

/// Makes the calls, each of whose replies is said.
fn play_calls() {
    let Ok(mut recent) = open() else {
        return;
    };
    let mut replies = paused(|| Vec::with_capacity(Global, CALLS.len()).unwrap());
    for (made, call) in CALLS.iter().enumerate() {
        let reply = take(&mut recent, *call).unwrap();
        say!("  {reply:?}");
        replies.push(reply).unwrap();
        assert!(are_the_last(&recent, made + 1));
        let same = again(&recent);
        assert!(same[..] == replies[recent.dropped() as usize..]);
        paused(|| drop(same));
    }
    assert!(recent.dropped() > 0, "nothing was dropped");
    paused(|| drop((recent, replies)))
}

/// Plays all of these.
pub fn play() {
    play_copy(
        Spec::Broadcast(2),
        ChanCall::B(BCall::Send(0, 5)),
        [
            ChanCall::B(BCall::ReceiverLen(1)),
            ChanCall::B(BCall::SenderLen(0)),
        ],
    );
    play_copy(
        Spec::Watch(5),
        ChanCall::W(WCall::Send(0, 6)),
        [
            ChanCall::W(WCall::Borrow(1)),
            ChanCall::W(WCall::HasChanged(1)),
        ],
    );
    play_calls()
}
