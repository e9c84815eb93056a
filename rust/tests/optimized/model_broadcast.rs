//! Random calls on a broadcast, compared with a plain model: how many values were sent, and the
//! position of each receiver.

use crate::beside_model::{Beside, Pairs};
use crate::support::{Random, poll_once};
use std::rc::{Rc, Weak};
use yovanelum::broadcast::{
    self, Receiver, Sender, WeakSender, error::RecvError, error::TryRecvError,
};

/// The channel as tokio's documentation describes it.
struct Model {
    retained: usize,
    sent: usize,
    senders: usize,
    // The position of each live receiver: how many values were sent before the one that it receives
    // next.
    places: Vec<usize>,
}

impl Model {
    fn oldest(&self) -> usize {
        self.sent.saturating_sub(self.retained)
    }

    fn queued(&self) -> usize {
        let least = self.places.iter().min().copied().unwrap_or(self.sent);
        self.sent - least.max(self.oldest())
    }

    /// Whether a receiver has yet to receive the value with this number.
    fn is_wanted(&self, value: usize) -> bool {
        value >= self.oldest() && self.places.iter().any(|place| *place <= value)
    }

    fn receive(&mut self, receiver: usize) -> Result<usize, TryRecvError> {
        let oldest = self.oldest();
        let place = &mut self.places[receiver];
        if *place < oldest {
            let lost = (oldest - *place) as u64;
            *place = oldest;
            Err(TryRecvError::Lagged(lost))
        } else if *place < self.sent {
            *place += 1;
            Ok(*place - 1)
        } else if self.senders == 0 {
            Err(TryRecvError::Closed)
        } else {
            Err(TryRecvError::Empty)
        }
    }
}

struct Pair {
    model: Model,
    senders: Vec<Sender<Rc<usize>>>,
    weak: Vec<WeakSender<Rc<usize>>>,
    receivers: Vec<Receiver<Rc<usize>>>,
    // The values that were sent, to check which of them were dropped.
    values: Vec<Weak<usize>>,
}

impl Pair {
    fn open(capacity: usize) -> Pair {
        let (tx, rx) = broadcast::channel(capacity);
        let mut retained = 1;
        while retained < capacity {
            retained *= 2;
        }
        let model = Model {
            retained,
            sent: 0,
            senders: 1,
            places: vec![0],
        };
        Pair {
            model,
            senders: vec![tx],
            weak: vec![],
            receivers: vec![rx],
            values: vec![],
        }
    }

    /// Asserts that exactly those values are alive that a receiver has yet to receive.
    fn assert_values_are_kept(&self) {
        for (number, value) in self.values.iter().enumerate() {
            assert_eq!(
                value.strong_count() > 0,
                self.model.is_wanted(number),
                "value {number} of {}",
                self.model.sent
            );
        }
    }

    /// Adds a new receiver, which receives what is sent from now on.
    fn begin(&mut self, receiver: Receiver<Rc<usize>>) {
        self.receivers.push(receiver);
        self.model.places.push(self.model.sent);
    }

    fn upgrade(&mut self, weak: usize) {
        let upgraded = self.weak[weak].upgrade();
        assert_eq!(upgraded.is_some(), self.model.senders > 0);
        self.model.senders += usize::from(upgraded.is_some());
        self.senders.extend(upgraded);
    }

    fn send(&mut self, sender: usize) {
        let value = Rc::new(self.model.sent);
        let kept = Rc::downgrade(&value);
        let answer = self.senders[sender].send(value);
        if self.model.places.is_empty() {
            assert_eq!(*answer.unwrap_err().0, self.model.sent);
        } else {
            assert_eq!(answer.unwrap(), self.model.places.len());
            self.model.sent += 1;
            self.values.push(kept);
        }
    }

    fn try_recv(&mut self, receiver: usize) {
        let answer = self.receivers[receiver].try_recv().map(|value| *value);
        assert_eq!(answer, self.model.receive(receiver));
    }

    fn recv(&mut self, receiver: usize) {
        let answer =
            poll_once(self.receivers[receiver].recv()).map(|answer| answer.map(|value| *value));
        let wanted = match self.model.receive(receiver) {
            Ok(value) => Some(Ok(value)),
            Err(TryRecvError::Lagged(n)) => Some(Err(RecvError::Lagged(n))),
            Err(TryRecvError::Closed) => Some(Err(RecvError::Closed)),
            Err(TryRecvError::Empty) => None,
        };
        assert_eq!(answer, wanted);
    }

    fn ask(&mut self) {
        for sender in &self.senders {
            assert_eq!(sender.len(), self.model.queued());
            assert_eq!(sender.is_empty(), self.model.queued() == 0);
            assert_eq!(sender.receiver_count(), self.model.places.len());
            assert_eq!(sender.strong_count(), self.model.senders);
            assert_eq!(sender.weak_count(), self.weak.len());
        }
        for (receiver, place) in self.receivers.iter().zip(&self.model.places) {
            assert_eq!(receiver.len(), self.model.sent - place);
            assert_eq!(receiver.is_empty(), self.model.sent == *place);
            assert_eq!(receiver.is_closed(), self.model.senders == 0);
        }
    }
}

impl Beside for Pair {
    fn step(&mut self, random: &mut Random) {
        let (s, r, w) = (self.senders.len(), self.receivers.len(), self.weak.len());
        match random.below(19) {
            0..=4 if s > 0 => self.send(random.below(s)),
            5..=7 if r > 0 => self.try_recv(random.below(r)),
            8..=9 if r > 0 => self.recv(random.below(r)),
            10 if s > 0 => self.begin(self.senders[random.below(s)].subscribe()),
            11 if r > 0 => self.begin(self.receivers[random.below(r)].resubscribe()),
            12 if s > 0 => {
                self.senders.push(self.senders[random.below(s)].clone());
                self.model.senders += 1;
            }
            13 if r > 0 && random.below(2) == 0 => {
                let dropped = random.below(r);
                drop(self.receivers.swap_remove(dropped));
                self.model.places.swap_remove(dropped);
            }
            14 if s > 0 && random.below(4) == 0 => {
                drop(self.senders.swap_remove(random.below(s)));
                self.model.senders -= 1;
            }
            15 if s > 0 => self.weak.push(self.senders[random.below(s)].downgrade()),
            16 if w > 0 => self.upgrade(random.below(w)),
            17 if w > 0 && random.below(2) == 0 => {
                self.weak.push(self.weak[random.below(w)].clone())
            }
            17 if w > 0 => drop(self.weak.swap_remove(random.below(w))),
            _ => self.ask(),
        }
        self.assert_values_are_kept();
    }

    fn create_and_drop(&self, count: usize) {
        match (self.senders.first(), self.receivers.first()) {
            (Some(sender), _) => (0..count).for_each(|_| drop(sender.subscribe())),
            (None, Some(receiver)) => (0..count).for_each(|_| drop(receiver.resubscribe())),
            (None, None) => {}
        }
    }
}

/// The pairs that are opened.
const PAIRS: Pairs<Pair> = Pairs {
    name: "model-broadcast",
    seeds: 0,
    open: |random| Pair::open(1 + random.below(6)),
};

#[test]
fn random_calls_answer_as_the_model() {
    PAIRS.answer_alike();
}

#[test]
fn random_calls_answer_as_the_model_where_the_core_takes_dropped_handles_out() {
    PAIRS.answer_alike_unrecorded();
}

#[test]
#[cfg_attr(
    debug_assertions,
    ignore = "the release build has it: here it takes half a minute"
)]
fn random_calls_answer_as_the_model_past_65_536_handles() {
    PAIRS.answer_alike_past_the_handles();
}
