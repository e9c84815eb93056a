//! Random scripts of a watch.

use super::channels::Watch;
use super::seat::{Seat, Shared, Wakers};
use super::seen::{self, Answer, Value};
use crate::random::Random;

/// How many receivers are alive, and how many calls wait until none is, at most.
const MOST: usize = 6;

/// A script that is played, with the handles that it has.
struct Script<W: Watch> {
    random: Random,
    sender: Option<Shared<W::Sender>>,
    receivers: Vec<Seat<W::Receiver>>,
    wakers: Wakers,
    handles: u32,
    values: u64,
    /// Whether futures may be forgotten.
    forgets: bool,
}

impl<W: Watch> Script<W> {
    fn open(seed: u64) -> Script<W> {
        let mut random = Random::new(seed);
        let (tx, rx) = W::open();
        Script {
            forgets: random.below(8) == 0,
            random,
            sender: Some(Shared::new(0, tx)),
            receivers: vec![Seat::new(1, rx)],
            wakers: Wakers::default(),
            handles: 2,
            values: 1,
        }
    }

    fn step(&mut self) {
        let is_sender = self.random.below(5) < 2;
        if self.sender.is_some() && (is_sender || self.receivers.is_empty()) {
            self.by_sender();
        } else if !self.receivers.is_empty() {
            self.by_receiver();
        }
    }

    fn made_receiver(&mut self, word: &'static str, of: u32, made: W::Receiver) {
        seen::call(word, of, Answer::New(self.handles));
        self.receivers.push(Seat::new(self.handles, made));
        self.handles += 1;
    }

    fn by_sender(&mut self) {
        let Some(sender) = &self.sender else { return };
        match self.random.below(20) {
            0..=1 if self.receivers.len() < MOST => {
                let made = W::subscribe(sender.handle());
                self.made_receiver("subscribe", 0, made);
            }
            2 if self.random.below(6) == 0 => self.sender = None,
            3 => {
                let count = W::receiver_count(sender.handle());
                seen::call("receiver-count", 0, Answer::Count(count));
            }
            4 => seen::call("is-closed", 0, Answer::Flag(W::is_closed(sender.handle()))),
            5 => seen::call("borrow", 0, Answer::Value(W::value(sender.handle()))),
            6..=10 => self.until_closed(),
            _ => self.send(),
        }
    }

    /// Begins, polls or ends a call that waits until no receiver is alive.
    fn until_closed(&mut self) {
        let Some(sender) = &mut self.sender else {
            return;
        };
        let waits = sender.waiting().waits();
        if waits == 0 || waits < MOST && self.random.below(2) == 0 {
            return sender.begin("closed", |it| W::closed(it), &mut self.wakers);
        }
        let at = self.random.below(waits);
        match self.random.below(6) {
            0 => sender.waiting().cancel(at),
            1 if self.forgets => sender.forget(at),
            word => sender.waiting().poll(at, &mut self.wakers, word < 4),
        }
    }

    fn send(&mut self) {
        let Some(sender) = &self.sender else { return };
        let (sender, number) = (sender.handle(), self.values);
        let value = Value::new(number);
        self.values += 1;
        match self.random.below(8) {
            0 => {
                let before = W::send_replace(sender, value);
                seen::call_with("send-replace", 0, number, before);
            }
            1 => {
                W::send_modify(sender, value);
                seen::call_with("modify", 0, number, Answer::Told(true));
            }
            2..=3 => {
                let tells = self.random.below(2) == 0;
                let told = W::send_if_modified(sender, value, tells);
                seen::call_with("modify", 0, number, Answer::Told(told));
            }
            _ => {
                let answer = W::send(sender, value);
                seen::call_with("send", 0, number, answer);
            }
        }
    }

    fn by_receiver(&mut self) {
        let at = self.random.below(self.receivers.len());
        let seat = &mut self.receivers[at];
        if seat.waits() == 0 {
            return self.by_free(at);
        }
        match self.random.below(12) {
            0 => seat.cancel(0),
            1..=2 if self.forgets => seat.forget(0),
            3 if self.random.below(2) == 0 => drop(self.receivers.swap_remove(at)),
            word => seat.poll(0, &mut self.wakers, word < 7),
        }
    }

    /// A call on a receiver on which no call waits.
    fn by_free(&mut self, at: usize) {
        let has_room = self.receivers.len() < MOST;
        let seat = &mut self.receivers[at];
        let number = seat.number;
        match self.random.below(14) {
            0..=1 => {
                let value = W::borrow_and_update(seat.alone());
                seen::call("update", number, Answer::Value(value));
            }
            2 => seen::call("borrow", number, Answer::Value(W::borrow(seat.alone()))),
            3 => seen::call("has-changed", number, W::has_changed(seat.alone())),
            4..=5 if has_room => {
                let made = seat.alone().clone();
                self.made_receiver("clone-receiver", number, made);
            }
            6..=7 => drop(self.receivers.swap_remove(at)),
            _ => seat.begin("changed", |it| W::changed(it), &mut self.wakers),
        }
    }

    /// Polls what waits, and drops all handles in a random order.
    fn end(mut self) {
        while self.sender.is_some() || !self.receivers.is_empty() {
            if self.receivers.is_empty() || self.sender.is_some() && self.random.below(4) == 0 {
                self.sender = None;
                continue;
            }
            let at = self.random.below(self.receivers.len());
            let mut seat = self.receivers.swap_remove(at);
            if seat.waits() > 0 {
                seat.poll(0, &mut self.wakers, false);
            }
        }
    }
}

/// Plays the script of a seed.
pub fn play<W: Watch>(seed: u64) {
    let mut script = Script::<W>::open(seed);
    for _ in 0..40 + script.random.below(80) {
        script.step();
    }
    script.end();
}
