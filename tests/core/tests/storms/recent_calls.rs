//! The last calls of a channel beside a plain list of all of them.

use crate::seeds;
use proved::Global;
use proved::rw_journal::{CallForm, NotedCall, RecentCalls, StoredCall, TakeFault};
use proved::rw_law::Reversible;
use proved::rw_world::{Chan, ChanCall, ChanReply, Spec, open_channel};
use support::Random;
use support::fixtures::{to_broadcast, to_watch};

type ChannelCalls = RecentCalls<Chan<u64>, StoredCall<u64>>;

/// A call that was made: its actor, its stamp, the call and its reply.
type Made = (u32, u64, ChanCall<u64>, ChanReply<u64>);

/// How many calls of a channel are tried.
const CALLS: usize = 600;

fn any_call(random: &mut Random, is_watch: bool) -> ChanCall<u64> {
    let (kind, handle, value) = (random.any(), random.below(12) as u32, random.any());
    if is_watch {
        ChanCall::W(to_watch(kind, handle, value))
    } else {
        ChanCall::B(to_broadcast(kind, handle, value))
    }
}

/// Makes a call on a channel, after making room for it.
fn make(channel: &mut Chan<u64>, call: &ChanCall<u64>) -> ChanReply<u64> {
    channel.ready(1).unwrap();
    channel.apply(call).0
}

/// Compares the stored calls with the last ones of the list. Made again from the base, they get the replies that they got.
fn compare(recent: &ChannelCalls, all: &[Made]) {
    let (older, newer) = recent.calls();
    let stored: Vec<&NotedCall<StoredCall<u64>>> = older.iter().chain(newer).collect();
    let dropped = all.len() - stored.len();
    assert_eq!(recent.dropped(), dropped as u64);
    let mut channel = recent.base().copied(Global).unwrap();
    for (noted, made) in stored.iter().zip(&all[dropped..]) {
        let call = noted.call.to_call();
        let reply = make(&mut channel, &call);
        assert_eq!((noted.actor, noted.stamp, call, reply), *made);
    }
}

/// Plays one channel, whose chunks have this many calls.
fn play(random: &mut Random, spec: Spec<u64>, chunk: usize) {
    let open = || open_channel(Global, &spec).unwrap();
    let mut recent: ChannelCalls = RecentCalls::open(Global, open(), chunk, chunk.min(16)).unwrap();
    let mut plain = open();
    let mut all: Vec<Made> = Vec::new();
    for _ in 0..CALLS {
        let call = any_call(random, matches!(spec, Spec::Watch(_)));
        let (actor, clock) = (random.below(64) as u32, random.any() % 1_000);
        let last = all.last().map_or(0, |made| made.1);
        let reply = make(&mut plain, &call);
        match recent.take(actor, clock, call) {
            Ok(receipt) => {
                assert_eq!(receipt.reply, reply);
                assert_eq!(receipt.stamp, 1 + clock.max(last));
                all.push((actor, receipt.stamp, call, reply));
            }
            Err(fault) => {
                assert_eq!(fault, TakeFault::Waits);
                assert!(Chan::<u64>::waits(&reply));
            }
        }
        let len = recent.len() as usize;
        assert!(len <= 2 * chunk && len >= chunk.min(all.len()), "{len}");
        if random.below(50) == 0 {
            compare(&recent, &all);
        }
    }
    compare(&recent, &all);
}

#[test]
fn the_last_calls_are_those_of_a_list() {
    for seed in seeds() {
        let mut random = Random::new(seed);
        for spec in [Spec::Broadcast(1), Spec::Broadcast(4), Spec::Watch(7)] {
            let chunk = 1 + random.below(40);
            play(&mut random, spec, chunk);
        }
    }
}
