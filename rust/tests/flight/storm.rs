//! Random programs over flight recorders, with a journal of the last calls at random places. Each
//! journal is one that the proved reader accepts, and shows at its end what the channels' own
//! snapshot says, by the numbers that the names have.

use super::support::Random;
use super::support::named::member;
use super::windows::{Window, texts, times, windows};
use std::hint::black_box;
use yovanelum::debugger::{Channel, Walk};
use yovanelum::{ChannelSnapshot, Recorder, broadcast, watch};

/// A broadcast with those of its handles that are alive.
struct Broadcast {
    senders: Vec<broadcast::Sender<u64>>,
    receivers: Vec<broadcast::Receiver<u64>>,
    weak: Vec<broadcast::WeakSender<u64>>,
}

/// A watch with those of its handles that are alive.
struct Watch {
    senders: Vec<watch::Sender<u64>>,
    receivers: Vec<watch::Receiver<u64>>,
}

/// A random one of a list, if it has any.
fn any<'a, T>(random: &mut Random, all: &'a mut [T]) -> Option<&'a mut T> {
    match all.len() {
        0 => None,
        len => Some(&mut all[random.below(len)]),
    }
}

/// Removes a random one of a list. The last one stays most of the time.
fn removed<T>(random: &mut Random, all: &mut Vec<T>) -> Option<T> {
    let goes = all.len() > 1 || random.below(20) == 0 && !all.is_empty();
    goes.then(|| all.swap_remove(random.below(all.len())))
}

/// Adds to a list, unless it is long.
fn add<T>(all: &mut Vec<T>, more: Option<T>, most: usize) {
    if all.len() < most {
        all.extend(more);
    }
}

impl Broadcast {
    fn new(capacity: usize) -> Broadcast {
        let (sender, receiver) = broadcast::channel(capacity);
        Broadcast {
            senders: vec![sender],
            receivers: vec![receiver],
            weak: vec![],
        }
    }

    fn step(&mut self, random: &mut Random, value: u64) {
        let Broadcast {
            senders,
            receivers,
            weak,
        } = self;
        match random.below(34) {
            0..10 => drop(any(random, senders).map(|tx| tx.send(value))),
            10..20 => drop(any(random, receivers).map(|rx| rx.try_recv())),
            20 | 21 => add(receivers, any(random, senders).map(|tx| tx.subscribe()), 12),
            22 => {
                let more = any(random, receivers).map(|rx| rx.resubscribe());
                add(receivers, more, 12);
            }
            23 | 24 => drop(removed(random, receivers)),
            25 => {
                let more = any(random, senders).map(|tx| tx.clone());
                add(senders, more, 6);
            }
            26 => drop(removed(random, senders)),
            27 => add(weak, any(random, senders).map(|tx| tx.downgrade()), 6),
            28 => add(
                senders,
                any(random, weak).and_then(|weak| weak.upgrade()),
                6,
            ),
            29 => drop(removed(random, weak)),
            30 => {
                let more = any(random, weak).map(|it| it.clone());
                add(weak, more, 6);
            }
            31 => drop(black_box(any(random, receivers).map(|rx| rx.len()))),
            32 => drop(black_box(
                any(random, senders).map(|tx| (tx.len(), tx.receiver_count())),
            )),
            _ => {}
        }
    }
}

impl Watch {
    fn new(value: u64) -> Watch {
        let (sender, receiver) = watch::channel(value);
        Watch {
            senders: vec![sender],
            receivers: vec![receiver],
        }
    }

    fn step(&mut self, random: &mut Random, value: u64) {
        let Watch { senders, receivers } = self;
        match random.below(14) {
            0 => drop(any(random, senders).map(|tx| tx.send(value))),
            1 => drop(any(random, senders).map(|tx| tx.send_replace(value))),
            2 => drop(any(random, senders).map(|tx| {
                tx.send_if_modified(|it| {
                    *it += 1;
                    *it % 2 == 0
                })
            })),
            3 => add(receivers, any(random, senders).map(|tx| tx.subscribe()), 8),
            4 => {
                let more = any(random, receivers).map(|rx| rx.clone());
                add(receivers, more, 8);
            }
            5 => drop(removed(random, receivers)),
            6 => {
                let more = any(random, senders).map(|tx| tx.clone());
                add(senders, more, 5);
            }
            7 => drop(removed(random, senders)),
            8 => drop(any(random, receivers).map(|rx| rx.mark_changed())),
            9 => drop(any(random, receivers).map(|rx| rx.mark_unchanged())),
            10 => drop(any(random, receivers).map(|rx| *rx.borrow_and_update())),
            11 => drop(any(random, receivers).map(|rx| rx.has_changed())),
            12 => drop(black_box(
                any(random, senders).map(|tx| (tx.receiver_count(), tx.is_closed())),
            )),
            _ => drop(any(random, receivers).map(|rx| *rx.borrow())),
        }
    }
}

/// Compares a channel at the journal's end with its snapshot.
fn compare(channel: Channel<'_>, begun: (Channel<'_>, &Window), snapshot: &ChannelSnapshot) {
    let (begun, window) = begun;
    let senders = channel.senders().count() as u64;
    assert_eq!(
        (senders, channel.weak_senders().count() as u64),
        (snapshot.senders(), snapshot.weak_senders())
    );
    assert_eq!(channel.receivers().count(), snapshot.receivers().len());
    for handle in channel.receivers() {
        let nth = window.handles[handle as usize].expect("a handle that isn't only in the lead");
        let name = format!("receiver {nth}");
        let mut all = snapshot.receivers().iter();
        let receiver = all.find(|it| it.name() == name).unwrap();
        match channel {
            Channel::Broadcast(channel) => {
                let shown = channel.receiver(handle).unwrap();
                // One that nobody asks lags by one at the beginning.
                let further = window.lags.get(&handle).map_or(0, |lag| lag - 1);
                let shown = (shown.unread + further, shown.lag + further);
                assert_eq!(shown, (receiver.unread(), receiver.lag()));
            }
            Channel::Watch(channel) => {
                let shown = channel.receiver(handle).unwrap();
                assert_eq!(u64::from(!shown.is_seen), receiver.unread());
            }
        }
    }
    if let (Channel::Broadcast(channel), Channel::Broadcast(begun)) = (channel, begun) {
        let sent = window.sent.unwrap() + channel.sent() - begun.sent();
        assert_eq!(
            (sent, channel.queued()),
            (snapshot.sent(), snapshot.retained())
        );
    }
}

/// The greatest capacity of a channel.
const MOST_RETAINED: u64 = 16;

/// The greatest number of live handles of a channel: 12 receivers, 6 senders, 6 weak ones, and one
/// that is created while the list of its kind is full.
const MOST_ALIVE: u64 = 25;

/// How many calls a channel keeps at most where `asked` are asked for, as the recorder documents.
fn most_kept(asked: u64) -> u64 {
    (2 * asked.max(2)).max(MOST_RETAINED + 2 * MOST_ALIVE)
}

/// Compares a journal of the last calls with the channels.
fn check(recorder: &Recorder, asked: u64) {
    let (journal, names) = (recorder.journal().unwrap(), recorder.names());
    let mut end = Walk::open(journal.as_bytes()).unwrap();
    let mut begun = Walk::open(journal.as_bytes()).unwrap();
    let windows = windows(&names);
    let lead: u64 = windows.iter().map(|window| window.lead).sum();
    let (end_place, lead_place) = (end.len(), lead);
    assert!(end_place - lead <= most_kept(asked) * windows.len() as u64);
    assert!(end.go_to(end_place) && begun.go_to(lead_place));
    for place in 1..=end_place {
        assert_eq!(end.entry(place).unwrap().actor() == 63, place <= lead);
    }
    let snapshot = recorder.snapshot();
    let channel_names = texts(member(&names, "channels"));
    for (number, window) in (0..).zip(&windows) {
        let name = &channel_names[&number];
        let mut channels = snapshot.channels().iter();
        let Some(snapshot) = channels.find(|channel| channel.name() == name) else {
            continue;
        };
        let number = number as u32;
        compare(
            end.channel(number).unwrap(),
            (begun.channel(number).unwrap(), window),
            snapshot,
        );
    }
    assert!(times(&names).is_sorted());
}

fn storm(seed: u64) {
    let mut random = Random::new(seed);
    let chunk = 1 + random.below(60);
    let recorder = Recorder::flight(chunk);
    let _entered = recorder.enter();
    let mut broadcasts: Vec<_> = (0..1 + random.below(3))
        .map(|_| Broadcast::new([1, 2, 3, 4, 8, 16][random.below(6)]))
        .collect();
    let mut watches: Vec<_> = (0..random.below(3))
        .map(|number| Watch::new(number as u64))
        .collect();
    for (number, channel) in broadcasts.iter().enumerate() {
        recorder.name(&channel.senders[0], &format!("broadcast {number}"));
    }
    for (number, channel) in watches.iter().enumerate() {
        recorder.name(&channel.senders[0], &format!("watch {number}"));
    }
    let steps = random.below(800);
    for step in 0..=steps {
        let number = random.below(broadcasts.len() + watches.len());
        match number.checked_sub(broadcasts.len()) {
            Some(number) => watches[number].step(&mut random, step as u64),
            None => broadcasts[number].step(&mut random, step as u64),
        }
        if random.below(100) == 0 || step == steps {
            check(&recorder, chunk as u64);
        }
    }
}

#[test]
fn each_journal_of_the_last_calls_shows_the_channels_as_they_are() {
    let runs = std::env::var("YOVANELUM_RUNS")
        .ok()
        .and_then(|runs| runs.parse().ok());
    for seed in 0..runs.unwrap_or(200) {
        storm(seed);
    }
}
