//! Random calls on a watch, compared with a plain model: the value, how many changes were notified,
//! and what each receiver has seen.

use crate::beside_model::{Beside, Pairs};
use crate::support::{Random, poll_once};
use std::rc::{Rc, Weak};
use yovanelum::watch::{self, Receiver, Sender};

/// The channel as tokio's documentation describes it.
struct Model {
    value: usize,
    changes: usize,
    senders: usize,
    // For each live receiver the number of changes when it last saw the value, or `None` if the
    // value was marked as unseen.
    seen: Vec<Option<usize>>,
}

impl Model {
    fn has_changed(&self, receiver: usize) -> bool {
        self.seen[receiver] != Some(self.changes)
    }

    fn write(&mut self, value: usize, told: bool) {
        self.value = value;
        self.changes += usize::from(told);
    }
}

struct Pair {
    model: Model,
    senders: Vec<Sender<Rc<usize>>>,
    receivers: Vec<Receiver<Rc<usize>>>,
    next: usize,
    last: Weak<usize>,
}

impl Pair {
    fn open() -> Pair {
        let value = Rc::new(0);
        let last = Rc::downgrade(&value);
        let (tx, rx) = watch::channel(value);
        let model = Model {
            value: 0,
            changes: 0,
            senders: 1,
            seen: vec![Some(0)],
        };
        Pair {
            model,
            senders: vec![tx],
            receivers: vec![rx],
            next: 0,
            last,
        }
    }

    fn value(&mut self) -> (Rc<usize>, Weak<usize>) {
        self.next += 1;
        let value = Rc::new(self.next);
        let weak = Rc::downgrade(&value);
        (value, weak)
    }

    fn begin(&mut self, receiver: Receiver<Rc<usize>>, seen: Option<usize>) {
        self.receivers.push(receiver);
        self.model.seen.push(seen);
    }

    fn mark(&mut self, receiver: usize, as_changed: bool) {
        if as_changed {
            self.receivers[receiver].mark_changed();
            self.model.seen[receiver] = None;
        } else {
            self.receivers[receiver].mark_unchanged();
            self.model.seen[receiver] = Some(self.model.changes);
        }
    }

    fn send(&mut self, sender: usize) {
        let (value, weak) = self.value();
        let before = self.last.clone();
        match self.senders[sender].send(value) {
            Ok(()) => {
                assert!(!self.model.seen.is_empty());
                self.model.write(self.next, true);
                assert_eq!(before.strong_count(), 0);
                self.last = weak;
            }
            Err(error) => {
                assert!(self.model.seen.is_empty());
                assert_eq!(*error.0, self.next);
            }
        }
    }

    fn send_replace(&mut self, sender: usize) {
        let (value, weak) = self.value();
        assert_eq!(*self.senders[sender].send_replace(value), self.model.value);
        self.model.write(self.next, true);
        self.last = weak;
    }

    fn modify(&mut self, sender: usize, told: bool) {
        let (value, weak) = self.value();
        let answer = self.senders[sender].send_if_modified(|now| {
            *now = value;
            told
        });
        assert_eq!(answer, told);
        self.model.write(self.next, told);
        self.last = weak;
    }

    fn changed(&mut self, receiver: usize) {
        let answer = poll_once(self.receivers[receiver].changed()).map(|answer| answer.is_ok());
        let wanted = match (self.model.has_changed(receiver), self.model.senders) {
            (true, _) => Some(true),
            (false, 0) => Some(false),
            (false, _) => None,
        };
        assert_eq!(answer, wanted);
        if wanted == Some(true) {
            self.model.seen[receiver] = Some(self.model.changes);
        }
    }

    fn update(&mut self, receiver: usize) {
        let seen = self.receivers[receiver].borrow_and_update();
        assert_eq!(
            (**seen, seen.has_changed()),
            (self.model.value, self.model.has_changed(receiver))
        );
        drop(seen);
        self.model.seen[receiver] = Some(self.model.changes);
    }

    fn wait_for(&mut self, receiver: usize, least: usize) {
        let answer = poll_once(self.receivers[receiver].wait_for(|value| **value >= least));
        let answer = answer.map(|answer| answer.map(|value| (**value, value.has_changed())).ok());
        let wanted = match (self.model.value >= least, self.model.senders) {
            (true, _) => Some(Some((self.model.value, self.model.has_changed(receiver)))),
            (false, 0) => Some(None),
            (false, _) => None,
        };
        assert_eq!(answer, wanted);
        self.model.seen[receiver] = Some(self.model.changes);
    }

    fn ask(&mut self) {
        for sender in &self.senders {
            assert_eq!(**sender.borrow(), self.model.value);
            assert!(!sender.borrow().has_changed());
            assert_eq!(sender.receiver_count(), self.model.seen.len());
            assert_eq!(sender.sender_count(), self.model.senders);
            assert_eq!(sender.is_closed(), self.model.seen.is_empty());
            assert_eq!(
                poll_once(sender.closed()).is_some(),
                self.model.seen.is_empty()
            );
        }
        for (receiver, handle) in self.receivers.iter().enumerate() {
            let looked = handle.borrow();
            assert_eq!(
                (**looked, looked.has_changed()),
                (self.model.value, self.model.has_changed(receiver))
            );
            drop(looked);
            let wanted = (self.model.senders > 0).then(|| self.model.has_changed(receiver));
            assert_eq!(handle.has_changed().ok(), wanted);
        }
    }
}

impl Beside for Pair {
    fn step(&mut self, random: &mut Random) {
        let (s, r) = (self.senders.len(), self.receivers.len());
        match random.below(20) {
            0..=2 if s > 0 => self.send(random.below(s)),
            3 if s > 0 => self.send_replace(random.below(s)),
            4..=5 if s > 0 => self.modify(random.below(s), random.below(2) == 0),
            6..=8 if r > 0 => self.changed(random.below(r)),
            9..=10 if r > 0 => self.update(random.below(r)),
            11 if r > 0 => self.wait_for(random.below(r), random.below(self.next + 2)),
            12..=13 if r > 0 => self.mark(random.below(r), random.below(2) == 0),
            14 if s > 0 => {
                let receiver = self.senders[random.below(s)].subscribe();
                self.begin(receiver, Some(self.model.changes));
            }
            15 if r > 0 => {
                let source = random.below(r);
                self.begin(self.receivers[source].clone(), self.model.seen[source]);
            }
            16 if s > 0 => {
                self.senders.push(self.senders[random.below(s)].clone());
                self.model.senders += 1;
            }
            17 if r > 0 && random.below(2) == 0 => {
                let dropped = random.below(r);
                drop(self.receivers.swap_remove(dropped));
                self.model.seen.swap_remove(dropped);
            }
            18 if s > 0 && random.below(4) == 0 => {
                drop(self.senders.swap_remove(random.below(s)));
                self.model.senders -= 1;
            }
            _ => self.ask(),
        }
        // The last value is alive as long as there is a handle.
        let is_kept = !self.senders.is_empty() || !self.receivers.is_empty();
        assert_eq!(self.last.strong_count() > 0, is_kept);
    }

    fn create_and_drop(&self, count: usize) {
        match (self.senders.first(), self.receivers.first()) {
            (Some(sender), _) => (0..count).for_each(|_| drop(sender.subscribe())),
            (None, Some(receiver)) => (0..count).for_each(|_| drop(receiver.clone())),
            (None, None) => {}
        }
    }
}

/// The pairs that are opened.
const PAIRS: Pairs<Pair> = Pairs {
    name: "model-watch",
    seeds: 1_000,
    open: |_| Pair::open(),
};

#[test]
fn random_calls_answer_as_the_model() {
    PAIRS.answer_alike();
}

#[test]
fn random_calls_answer_as_the_model_where_the_core_takes_dropped_handles_out() {
    PAIRS.answer_alike_unrecorded();
}

#[test]
fn random_calls_answer_as_the_model_past_65_536_handles() {
    PAIRS.answer_alike_past_the_handles();
}
