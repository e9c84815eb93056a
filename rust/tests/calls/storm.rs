//! Random calls on channels, which answer as a model of tokio's documentation does; and at the end
//! of each run its account, as the report and as JSON, which says what the definitions say.
//!
//! `YOVANELUM_RUNS` says how many runs there are. In the folder that `YOVANELUM_STORM` names, each
//! is kept with its account, for page/tests/same_accounts.js.

mod accounts;
mod expected;

use crate::support::{Random, poll_once, temporary};
use accounts::{check_report, losses, number, said, why};
use expected::{Broadcast, Watch};
use std::collections::BTreeMap;
use std::fs;
use std::path::Path;
use yovanelum::broadcast::error::TryRecvError;
use yovanelum::{Recorder, block_on, broadcast, named, read_json, watch};

/// How many handles of a kind a channel has at most.
const MOST_HANDLES: usize = 5;

/// A channel with its handles by their numbers, and its model.
enum Pair {
    Broadcast(
        BTreeMap<u32, broadcast::Sender<u64>>,
        BTreeMap<u32, broadcast::Receiver<u64>>,
        Broadcast,
    ),
    Watch(
        BTreeMap<u32, watch::Sender<u64>>,
        BTreeMap<u32, watch::Receiver<u64>>,
        Watch,
    ),
}

/// One of the handles that are there.
fn one_of<T>(handles: &BTreeMap<u32, T>, random: &mut Random) -> u32 {
    *handles.keys().nth(random.below(handles.len())).unwrap()
}

/// A call on a sender of a broadcast. Handles get the number `next`.
fn by_sender(
    senders: &mut BTreeMap<u32, broadcast::Sender<u64>>,
    receivers: &mut BTreeMap<u32, broadcast::Receiver<u64>>,
    model: &mut Broadcast,
    (random, place, next): (&mut Random, u64, &mut u32),
) {
    let handle = one_of(senders, random);
    match random.below(14) {
        0 if receivers.len() < MOST_HANDLES => {
            receivers.insert(*next, senders[&handle].subscribe());
            model.subscribed(*next);
            *next += 1;
        }
        1 if senders.len() < MOST_HANDLES => {
            senders.insert(*next, senders[&handle].clone());
            *next += 1;
        }
        2 if random.below(4) == 0 => {
            drop(senders.remove(&handle));
            if senders.is_empty() {
                model.closed();
            }
        }
        3 => assert_eq!(senders[&handle].receiver_count(), receivers.len()),
        _ => {
            let reached = senders[&handle].send(model.sent + 1).ok();
            assert_eq!(reached.map(|it| it as u64), model.sent(place));
        }
    }
}

/// A call on a receiver of a broadcast.
fn by_receiver(
    receivers: &mut BTreeMap<u32, broadcast::Receiver<u64>>,
    model: &mut Broadcast,
    (random, place, next): (&mut Random, u64, &mut u32),
) {
    let handle = one_of(receivers, random);
    match random.below(12) {
        0 if receivers.len() < MOST_HANDLES => {
            receivers.insert(*next, receivers[&handle].resubscribe());
            model.subscribed(*next);
            *next += 1;
        }
        1 if random.below(2) == 0 => {
            drop(receivers.remove(&handle));
            model.dropped(handle, place);
        }
        _ => {
            let answer = receivers.get_mut(&handle).unwrap().try_recv();
            let nothing = if model.is_closed() {
                TryRecvError::Closed
            } else {
                TryRecvError::Empty
            };
            let wanted = model.received(handle, place);
            let refused = |lost: Option<u64>| lost.map_or(nothing, TryRecvError::Lagged);
            assert_eq!(answer, wanted.map_err(refused));
        }
    }
}

/// A call on a sender of a watch.
fn by_watch_sender(
    senders: &mut BTreeMap<u32, watch::Sender<u64>>,
    receivers: &mut BTreeMap<u32, watch::Receiver<u64>>,
    model: &mut Watch,
    (random, next): (&mut Random, &mut u32),
) {
    let handle = one_of(senders, random);
    match random.below(12) {
        0 if receivers.len() < MOST_HANDLES => {
            receivers.insert(*next, senders[&handle].subscribe());
            model.subscribed(*next);
            *next += 1;
        }
        1 if senders.len() < MOST_HANDLES => {
            senders.insert(*next, senders[&handle].clone());
            *next += 1;
        }
        2 if random.below(4) == 0 => {
            drop(senders.remove(&handle));
            if senders.is_empty() {
                model.closed();
            }
        }
        3 => assert_eq!(*senders[&handle].borrow(), model.changes),
        4 => {
            let before = senders[&handle].send_replace(model.changes + 1);
            assert_eq!(before, model.changes);
            model.sent(true);
        }
        _ => {
            let is_sent = senders[&handle].send(model.changes + 1).is_ok();
            assert_eq!(is_sent, model.sent(false));
        }
    }
}

/// A call on a receiver of a watch.
fn by_watch_receiver(
    receivers: &mut BTreeMap<u32, watch::Receiver<u64>>,
    model: &mut Watch,
    (random, next): (&mut Random, &mut u32),
) {
    let handle = one_of(receivers, random);
    let has_room = receivers.len() < MOST_HANDLES;
    let receiver = receivers.get_mut(&handle).unwrap();
    match random.below(14) {
        0 if has_room => {
            let made = receiver.clone();
            receivers.insert(*next, made);
            model.cloned(handle, *next);
            *next += 1;
        }
        1 if random.below(2) == 0 => {
            drop(receivers.remove(&handle));
            model.dropped(handle);
        }
        2..=4 => {
            assert_eq!(*receiver.borrow(), model.changes);
            model.learned(handle, true, false);
        }
        5..=6 => {
            let is_new = model.asked(handle);
            let answer = receiver.has_changed().ok();
            assert_eq!(answer, (!model.is_closed()).then_some(is_new));
            match answer {
                Some(true) => model.learned(handle, false, false),
                Some(false) => {}
                None => model.told_closed(handle),
            }
        }
        7..=8 => {
            // One that would wait is no call.
            let is_new = model.lookers[&handle].has_new(model.changes);
            if is_new || model.is_closed() {
                model.asked(handle);
                let answer = poll_once(receiver.changed()).unwrap();
                assert_eq!(answer.is_ok(), is_new);
                if is_new {
                    model.learned(handle, false, true);
                } else {
                    model.told_closed(handle);
                }
            }
        }
        9 => {
            receiver.mark_unchanged();
            model.dismissed(handle);
        }
        10 => {
            receiver.mark_changed();
            model.lookers.get_mut(&handle).unwrap().is_unmarked = true;
        }
        _ => {
            assert_eq!(*receiver.borrow_and_update(), model.changes);
            model.learned(handle, true, true);
        }
    }
}

impl Pair {
    fn open(number: u32, random: &mut Random) -> Pair {
        if random.below(2) == 0 {
            let capacity = 1 + random.below(5);
            let (sender, receiver) = broadcast::channel(capacity);
            let model = Broadcast::new(number, capacity);
            Pair::Broadcast([(0, sender)].into(), [(1, receiver)].into(), model)
        } else {
            let (sender, receiver) = watch::channel(0);
            let (senders, receivers) = ([(0, sender)].into(), [(1, receiver)].into());
            Pair::Watch(senders, receivers, Watch::new(number))
        }
    }

    /// Makes a random call, if a handle is there.
    fn call(&mut self, random: &mut Random, place: u64, next: &mut u32) {
        let is_sender = random.below(2) == 0;
        match self {
            Pair::Broadcast(senders, receivers, model) => {
                if !senders.is_empty() && (is_sender || receivers.is_empty()) {
                    by_sender(senders, receivers, model, (random, place, next));
                } else if !receivers.is_empty() {
                    by_receiver(receivers, model, (random, place, next));
                }
            }
            Pair::Watch(senders, receivers, model) => {
                if !senders.is_empty() && (is_sender || receivers.is_empty()) {
                    by_watch_sender(senders, receivers, model, (random, next));
                } else if !receivers.is_empty() {
                    by_watch_receiver(receivers, model, (random, next));
                }
            }
        }
    }
}

/// Makes the run of a seed, and checks its account.
fn storm(seed: u64) {
    let mut random = Random::new(seed);
    let recorder = Recorder::new();
    let entered = recorder.enter();
    let mut pairs: Vec<Pair> = (0..1 + random.below(3) as u32)
        .map(|number| Pair::open(number, &mut random))
        .collect();
    let mut next = vec![2; pairs.len()];
    for _ in 0..20 + random.below(120) {
        let channel = random.below(pairs.len());
        let place = recorder.len() + 1;
        let (pair, next) = (&mut pairs[channel], &mut next[channel]);
        let actor = format!("task-{}", random.below(3));
        block_on(named(&actor, async { pair.call(&mut random, place, next) }));
    }
    let path = temporary::path(&format!("storm-{seed}.journal"));
    recorder.save(&path).unwrap();
    drop(entered);
    let calls = recorder.len();
    let text = why(&path, &["--json"]);
    let account = read_json(&text).unwrap();
    let (mut facts, mut all) = (vec![], vec![]);
    for pair in &pairs {
        match pair {
            Pair::Broadcast(_, _, model) => {
                facts.extend(model.facts());
                all.extend(model.losses());
            }
            Pair::Watch(_, _, model) => facts.extend(model.facts()),
        }
    }
    facts.sort();
    all.sort();
    let of_json = (number(&account, "calls"), number(&account, "channels"));
    assert_eq!(of_json, (Some(calls), Some(pairs.len() as u64)));
    assert_eq!(said(account.get("facts").unwrap().items()), facts);
    assert_eq!(losses(&account), all);
    check_report(&account, &why(&path, &[]), calls);
    keep(&path, &text);
}

/// Keeps the files of a run with its account where that is asked for, or removes them.
fn keep(path: &Path, account: &str) {
    let kept = std::env::var_os("YOVANELUM_STORM");
    for ending in ["journal", "names", "said"] {
        let file = path.with_extension(ending);
        if let Some(folder) = kept.as_ref().filter(|_| ending != "said") {
            fs::copy(&file, Path::new(folder).join(file.file_name().unwrap())).unwrap();
        }
        fs::remove_file(file).unwrap();
    }
    if let Some(folder) = kept {
        let file = path.with_extension("account");
        fs::write(Path::new(&folder).join(file.file_name().unwrap()), account).unwrap();
    }
}

/// The seed of a run, which a failure says.
struct Seed(u64);

impl Drop for Seed {
    fn drop(&mut self) {
        if std::thread::panicking() {
            eprintln!("the run of seed {}", self.0);
        }
    }
}

#[test]
fn accounts_of_random_runs_say_what_the_definitions_say() {
    let runs = std::env::var("YOVANELUM_RUNS").ok();
    let usual = if cfg!(miri) { 2 } else { 300 };
    for seed in 1..=runs.map_or(usual, |runs| runs.parse().unwrap()) {
        let seed = Seed(seed);
        storm(seed.0);
    }
}
