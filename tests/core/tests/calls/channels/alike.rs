//! Channels that other calls led to what a channel shows: they are alike, and reply alike from then on.

use proved::Global;
use proved::rw_broadcast::{BCall, BReply, Broadcast};
use proved::rw_handles::Kind;
use proved::rw_law::Reversible;
use proved::rw_watch::{WCall, WReply, Watch};
use std::fmt::Debug;
use support::Random;
use support::fixtures::{to_broadcast, to_watch};

/// How many random scripts there are for each kind of channel.
const SCRIPTS: u64 = 2_000;

/// How many calls each has, before and after the comparison.
const CALLS: usize = 60;

fn call_of<M: Reversible>(channel: &mut M, call: &M::Call) -> M::Reply {
    channel.ready(1).unwrap();
    channel.apply(call).0
}

/// What is asked of calls of both kinds of channels.
trait AnyCalls: Reversible<Call: Debug, Reply: PartialEq + Debug> {
    fn any(kind: u64, handle: u32, value: u64) -> Self::Call;

    fn by(call: &Self::Call, handle: u32) -> Self::Call;

    /// The handle that the call created.
    fn created(reply: &Self::Reply) -> Option<u32>;
}

impl AnyCalls for Broadcast<u64> {
    fn any(kind: u64, handle: u32, value: u64) -> BCall<u64> {
        to_broadcast(kind, handle, value)
    }

    fn by(call: &BCall<u64>, handle: u32) -> BCall<u64> {
        call.with_handle(handle)
    }

    fn created(reply: &BReply<u64>) -> Option<u32> {
        match reply {
            BReply::New(number) => Some(*number),
            _ => None,
        }
    }
}

impl AnyCalls for Watch<u64> {
    fn any(kind: u64, handle: u32, value: u64) -> WCall<u64> {
        to_watch(kind, handle, value)
    }

    fn by(call: &WCall<u64>, handle: u32) -> WCall<u64> {
        call.with_handle(handle)
    }

    fn created(reply: &WReply<u64>) -> Option<u32> {
        match reply {
            WReply::New(number) => Some(*number),
            _ => None,
        }
    }
}

fn new<M: AnyCalls>(channel: &mut M, call: M::Call) -> u32 {
    let reply = call_of(channel, &call);
    M::created(&reply).unwrap_or_else(|| panic!("{reply:?}"))
}

/// Asserts that two channels answer random calls alike, by the handles of one and by their numbers in the other.
fn answer_alike<M: AnyCalls>(
    random: &mut Random,
    channel: &mut M,
    lead: &mut M,
    mut numbers: Vec<u32>,
) {
    for value in 0..CALLS as u64 {
        if numbers.is_empty() {
            break;
        }
        let handle = random.below(numbers.len()) as u32;
        let call = M::any(random.any(), handle, 100 + value);
        let reply = call_of(channel, &call);
        let other = call_of(lead, &M::by(&call, numbers[handle as usize]));
        match (M::created(&reply), M::created(&other)) {
            (Some(_), Some(number)) => numbers.push(number),
            _ => assert_eq!(reply, other, "{call:?}"),
        }
    }
}

/// Leads a new channel to the same values and handles, with no more sends than that needs. Returns the number of each handle there.
fn lead_to(channel: &Broadcast<u64>) -> (Broadcast<u64>, Vec<u32>) {
    let handles = 0..channel.made();
    let oldest = channel.sent().saturating_sub(channel.capacity());
    let positions = handles.clone().filter_map(|h| channel.position(h));
    let first = positions.min().unwrap_or(oldest).min(oldest);
    let mut lead = Broadcast::open(Global, channel.capacity() as u32).unwrap();
    let mut numbers = vec![u32::MAX; handles.len()];
    for at in first..=channel.sent() {
        for h in handles.clone().filter(|&h| channel.position(h) == Some(at)) {
            numbers[h as usize] = new(&mut lead, BCall::Subscribe(0));
        }
        if at < channel.sent() {
            let value = at.checked_sub(oldest).and_then(|i| channel.window(i));
            call_of(&mut lead, &BCall::Send(0, value.unwrap_or(0)));
        }
    }
    for h in handles {
        match channel.kind(h) {
            Some(Kind::Sender) => numbers[h as usize] = new(&mut lead, BCall::CloneSender(0)),
            Some(Kind::Weak) => numbers[h as usize] = new(&mut lead, BCall::Downgrade(0)),
            _ => {}
        }
    }
    call_of(&mut lead, &BCall::DropHandle(1));
    call_of(&mut lead, &BCall::DropHandle(0));
    (lead, numbers)
}

/// Leads a new watch to the same value and handles.
fn lead_to_watch(channel: &Watch<u64>) -> (Watch<u64>, Vec<u32>) {
    let mut lead = Watch::open(Global, channel.value()).unwrap();
    let mut numbers = Vec::new();
    for h in 0..channel.made() {
        let call = match channel.kind(h) {
            Some(Kind::Receiver) => WCall::Subscribe(0),
            _ => WCall::CloneSender(0),
        };
        let number = new(&mut lead, call);
        if channel.is_seen(h) == Some(false) {
            call_of(&mut lead, &WCall::MarkChanged(number));
        }
        numbers.push(number);
    }
    call_of(&mut lead, &WCall::DropHandle(1));
    call_of(&mut lead, &WCall::DropHandle(0));
    (lead, numbers)
}

/// A broadcast after random calls, with its live handles alone.
fn any_broadcast(random: &mut Random) -> Broadcast<u64> {
    let mut channel = Broadcast::open(Global, 2).unwrap();
    for value in 0..CALLS as u64 {
        let handle = random.below(channel.made() as usize) as u32;
        let call = match random.below(8) {
            0 => BCall::DropHandle(handle),
            1..=3 => BCall::Send(0, value),
            _ => to_broadcast(random.any(), handle, value),
        };
        call_of(&mut channel, &call);
    }
    channel.renumber(Global).unwrap();
    channel
}

#[test]
fn a_broadcast_is_like_one_that_was_led_there() {
    let mut lags = 0;
    for seed in 0..SCRIPTS {
        let mut random = Random::new(seed);
        let mut channel = any_broadcast(&mut random);
        let (mut lead, numbers) = lead_to(&channel);
        assert!(
            channel.is_alike(Global, &lead, &numbers).unwrap(),
            "seed {seed}"
        );
        lags += (0..channel.made())
            .filter(|&h| channel.lag(h) > Some(0))
            .count();
        answer_alike(&mut random, &mut channel, &mut lead, numbers);
    }
    assert!(lags > 100, "{lags}");
}

#[test]
fn a_watch_is_like_one_that_was_led_there() {
    for seed in 0..SCRIPTS {
        let mut random = Random::new(seed);
        let mut channel = Watch::open(Global, 5).unwrap();
        for value in 0..CALLS as u64 {
            let handle = random.below(channel.made() as usize) as u32;
            call_of(&mut channel, &to_watch(random.any(), handle, value));
        }
        channel.renumber(Global).unwrap();
        let (mut lead, numbers) = lead_to_watch(&channel);
        assert!(
            channel.is_alike(Global, &lead, &numbers).unwrap(),
            "seed {seed}"
        );
        answer_alike(&mut random, &mut channel, &mut lead, numbers);
    }
}

/// A broadcast of capacity 2 that has sent 1, 2 and 3, with sender 0 and receiver 1, which lags by one.
fn lagging() -> Broadcast<u64> {
    let mut channel = Broadcast::open(Global, 2).unwrap();
    for value in 1..=3 {
        call_of(&mut channel, &BCall::Send(0, value));
    }
    channel
}

#[test]
fn a_broadcast_is_unlike_one_that_differs_in_one_thing() {
    let channel = lagging();
    let is_alike = |change: &[BCall<u64>], numbers: &[u32]| {
        let mut other = lagging();
        for call in change {
            call_of(&mut other, call);
        }
        channel.is_alike(Global, &other, numbers).unwrap()
    };
    assert!(is_alike(&[], &[0, 1]));
    assert!(!is_alike(&[], &[1, 0]));
    assert!(!is_alike(&[], &[0, 0]));
    assert!(!is_alike(&[], &[0, 2]));
    assert!(!is_alike(&[], &[0]));
    assert!(!is_alike(&[], &[0, 1, 2]));
    assert!(!is_alike(&[BCall::TryRecv(1)], &[0, 1]));
    assert!(!is_alike(&[BCall::Send(0, 4)], &[0, 1]));
    assert!(!is_alike(&[BCall::Subscribe(0)], &[0, 1]));
    assert!(!is_alike(&[BCall::DropHandle(1)], &[0, 1]));
    assert!(is_alike(
        &[BCall::CloneSender(0), BCall::DropHandle(0)],
        &[2, 1]
    ));
    let mut dropped = lagging();
    call_of(&mut dropped, &BCall::DropHandle(1));
    assert!(!dropped.is_alike(Global, &dropped, &[0, 1]).unwrap());
}

#[test]
fn a_dozing_receiver_lags_by_one_and_the_others_as_before() {
    let mut channel = lagging();
    call_of(&mut channel, &BCall::Subscribe(0));
    for value in 4..=99 {
        call_of(&mut channel, &BCall::Send(0, value));
    }
    assert_eq!([1, 2].map(|h| channel.lag(h)), [Some(97), Some(94)]);
    let mut dozing = lagging();
    call_of(&mut dozing, &BCall::Subscribe(0));
    for value in 4..=99 {
        call_of(&mut dozing, &BCall::Send(0, value));
    }
    for handle in [0, 1, 3] {
        dozing.doze(handle);
    }
    assert_eq!([1, 2].map(|h| dozing.lag(h)), [Some(1), Some(94)]);
    let calls = [
        BCall::SenderLen(0),
        BCall::Resubscribe(1),
        BCall::Recv(2),
        BCall::Recv(2),
        BCall::DropHandle(1),
        BCall::ReceiverCount(0),
    ];
    for call in calls {
        assert_eq!(call_of(&mut channel, &call), call_of(&mut dozing, &call));
    }
}

#[test]
fn a_watch_is_unlike_one_that_differs_in_one_thing() {
    let channel = Watch::open(Global, 5).unwrap();
    let is_alike = |change: &[WCall<u64>], numbers: &[u32]| {
        let mut other = Watch::open(Global, 5).unwrap();
        for call in change {
            call_of(&mut other, call);
        }
        channel.is_alike(Global, &other, numbers).unwrap()
    };
    assert!(is_alike(&[], &[0, 1]));
    assert!(!is_alike(&[], &[1, 0]));
    assert!(!is_alike(&[WCall::MarkChanged(1)], &[0, 1]));
    assert!(!is_alike(&[WCall::Send(0, 6), WCall::Update(1)], &[0, 1]));
    assert!(is_alike(&[WCall::Send(0, 5), WCall::Update(1)], &[0, 1]));
    assert!(!is_alike(&[WCall::Send(0, 5)], &[0, 1]));
}
