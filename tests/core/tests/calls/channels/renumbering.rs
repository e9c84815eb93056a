//! Channels whose live handles get new numbers, beside the same channels whose handles keep theirs.

use proved::Global;
use proved::rw_broadcast::{BCall, BReply};
use proved::rw_handles::{Kind, MOST_HANDLES};
use proved::rw_law::Reversible;
use proved::rw_watch::{WCall, WReply};
use proved::rw_world::{Chan, ChanCall, ChanReply, Spec, open_channel};
use support::Random;
use support::fixtures::{to_broadcast, to_watch};

/// How many random scripts there are for each kind of channel.
const SCRIPTS: u64 = 5_000;

/// How many calls each has.
const CALLS: usize = 80;

/// A channel that is renumbered now and then, and the same channel that never is.
struct Pair {
    renumbered: Chan<u64>,
    plain: Chan<u64>,
    // For each handle of the renumbered channel, the number that it has in the other.
    numbers: Vec<u32>,
    values: u64,
}

impl Pair {
    fn open(spec: Spec<u64>) -> Pair {
        Pair {
            renumbered: open_channel(Global, &spec).unwrap(),
            plain: open_channel(Global, &spec).unwrap(),
            numbers: vec![0, 1],
            values: 0,
        }
    }

    /// Makes a call on both channels, each with its own number of the handle.
    fn call(&mut self, call: ChanCall<u64>) {
        let handle = call.handle() as usize;
        let made = self.numbers.len();
        let later = self.plain.made() + handle.saturating_sub(made) as u32;
        let other = self.numbers.get(handle).copied().unwrap_or(later);
        let reply = reply_to(&mut self.renumbered, &call);
        let wanted = reply_to(&mut self.plain, &call.with_handle(other));
        match (reply.new_handle(), wanted.new_handle()) {
            (Some(new), Some(number)) => {
                assert_eq!(new as usize, made);
                self.numbers.push(number);
            }
            _ => assert_eq!(reply, wanted),
        }
    }

    /// Renumbers the one channel. The handles that are left have to be those that are alive in the other.
    fn renumber(&mut self) {
        let before = self.renumbered.renumber(Global).unwrap();
        self.numbers = before
            .iter()
            .map(|&number| self.numbers[number as usize])
            .collect();
        let alive = (0..self.plain.made()).filter(|&h| shown(&self.plain, h).0.is_some());
        assert_eq!(self.numbers, alive.collect::<Vec<u32>>());
        assert_eq!(self.renumbered.made() as usize, self.numbers.len());
    }

    /// Asserts that each handle is the same in both.
    fn compare(&self) {
        for (handle, &other) in self.numbers.iter().enumerate() {
            let here = shown(&self.renumbered, handle as u32);
            assert_eq!(here, shown(&self.plain, other));
        }
    }

    /// Makes any call with any handle: one that is there, or one of the next two. Drops are made more often than others.
    fn call_any(&mut self, random: &mut Random) {
        let handle = random.below(self.numbers.len() + 2) as u32;
        let kind = random.any();
        self.values += 1;
        let call = match (&self.plain, random.below(5)) {
            (Chan::Broadcast(_), 0) => ChanCall::B(BCall::DropHandle(handle)),
            (Chan::Watch(_), 0) => ChanCall::W(WCall::DropHandle(handle)),
            (Chan::Broadcast(_), _) => ChanCall::B(to_broadcast(kind, handle, self.values)),
            (Chan::Watch(_), _) => ChanCall::W(to_watch(kind, handle, self.values)),
        };
        self.call(call);
    }
}

fn reply_to(channel: &mut Chan<u64>, call: &ChanCall<u64>) -> ChanReply<u64> {
    channel.ready(1).unwrap();
    channel.apply(call).0
}

/// Returns the kind of a handle, its position where it is a receiver of a broadcast, and whether it has seen the value where it is one
/// of a watch.
fn shown(channel: &Chan<u64>, handle: u32) -> (Option<Kind>, Option<u64>, Option<bool>) {
    match channel {
        Chan::Broadcast(it) => (it.kind(handle), it.position(handle), None),
        Chan::Watch(it) => (it.kind(handle), None, it.is_seen(handle)),
    }
}

/// Plays random scripts, with renumberings at random places. Returns how many handles they took out.
fn play_scripts(spec: Spec<u64>) -> usize {
    let mut taken_out = 0;
    for seed in 0..SCRIPTS {
        let mut random = Random::new(seed);
        let mut pair = Pair::open(spec);
        for _ in 0..CALLS {
            pair.call_any(&mut random);
            if random.below(10) == 0 {
                taken_out += pair.numbers.len();
                pair.renumber();
                taken_out -= pair.numbers.len();
            }
        }
        pair.compare();
    }
    taken_out
}

#[test]
fn a_renumbered_broadcast_replies_as_before() {
    let taken_out = play_scripts(Spec::Broadcast(4));
    assert!(taken_out > 2 * SCRIPTS as usize, "{taken_out}");
}

#[test]
fn a_renumbered_watch_replies_as_before() {
    let taken_out = play_scripts(Spec::Watch(0));
    assert!(taken_out > 2 * SCRIPTS as usize, "{taken_out}");
}

#[test]
fn a_full_broadcast_makes_handles_again() {
    let mut channel = open_channel(Global, &Spec::Broadcast(4)).unwrap();
    let mut reply = |call| match reply_to(&mut channel, &ChanCall::B(call)) {
        ChanReply::B(reply) => reply,
        other => panic!("{other:?}"),
    };
    assert_eq!(reply(BCall::Send(0, 7)), BReply::Sent(1));
    for handle in 2..MOST_HANDLES as u32 {
        assert_eq!(reply(BCall::Subscribe(0)), BReply::New(handle));
        assert_eq!(reply(BCall::DropHandle(handle)), BReply::Dropped);
    }
    assert_eq!(reply(BCall::Subscribe(0)), BReply::TooManyHandles);
    let before = channel.renumber(Global).unwrap();
    assert_eq!((&before[..], channel.made()), (&[0, 1][..], 2));
    let mut reply = |call| reply_to(&mut channel, &ChanCall::B(call));
    assert_eq!(reply(BCall::Subscribe(0)), ChanReply::B(BReply::New(2)));
    assert_eq!(reply(BCall::TryRecv(1)), ChanReply::B(BReply::Value(7)));
    assert_eq!(reply(BCall::TryRecv(2)), ChanReply::B(BReply::Empty));
}

#[test]
fn a_watch_keeps_what_is_seen() {
    let mut channel = open_channel(Global, &Spec::Watch(5)).unwrap();
    let mut reply = |call| reply_to(&mut channel, &ChanCall::W(call));
    let made = [
        WCall::Subscribe(0),
        WCall::CloneSender(0),
        WCall::Subscribe(0),
    ]
    .map(&mut reply);
    assert_eq!(made, [2, 3, 4].map(|h| ChanReply::W(WReply::New(h))));
    let called = [
        WCall::Send(0, 6),
        WCall::MarkUnchanged(4),
        WCall::DropHandle(0),
        WCall::DropHandle(2),
    ];
    let replies = called.map(&mut reply);
    let wanted = [
        WReply::Stored,
        WReply::Done,
        WReply::Dropped,
        WReply::Dropped,
    ];
    assert_eq!(replies, wanted.map(ChanReply::W));
    let before = channel.renumber(Global).unwrap();
    assert_eq!(&before[..], &[1, 3, 4]);
    let mut reply = |call| reply_to(&mut channel, &ChanCall::W(call));
    let asked = [
        WCall::HasChanged(0),
        WCall::ReceiverCount(1),
        WCall::HasChanged(2),
        WCall::Borrow(3),
    ];
    let replies = asked.map(&mut reply);
    let wanted = [
        WReply::Flag(true),
        WReply::Count(2),
        WReply::Flag(false),
        WReply::Unknown,
    ];
    assert_eq!(replies, wanted.map(ChanReply::W));
}
