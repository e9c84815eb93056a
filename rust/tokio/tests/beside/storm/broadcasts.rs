//! Random scripts of a broadcast.

use super::channels::Broadcast;
use super::seat::{Seat, Wakers};
use super::seen::{self, Answer, Value};
use crate::random::Random;

/// How many senders and how many receivers are alive at most.
const MOST: usize = 6;

/// A script that is played, with the handles that it has.
struct Script<B: Broadcast> {
    random: Random,
    senders: Vec<Seat<B::Sender>>,
    receivers: Vec<Seat<B::Receiver>>,
    wakers: Wakers,
    handles: u32,
    values: u64,
    /// Of how many calls one is a sender's.
    pace: usize,
    /// Whether futures may be forgotten.
    forgets: bool,
}

/// The capacity of a script's channel, by the first of its numbers.
fn capacity(random: &mut Random) -> usize {
    1 + random.below(5)
}

/// How many values the channel of a script retains: tokio rounds the capacity up.
pub fn retained(seed: u64) -> Option<u64> {
    let capacity = capacity(&mut Random::new(seed));
    Some(capacity.next_power_of_two() as u64)
}

impl<B: Broadcast> Script<B> {
    fn open(seed: u64) -> Script<B> {
        let mut random = Random::new(seed);
        let (tx, rx) = B::open(capacity(&mut random));
        Script {
            pace: 2 + random.below(7),
            forgets: random.below(8) == 0,
            random,
            senders: vec![Seat::new(0, tx)],
            receivers: vec![Seat::new(1, rx)],
            wakers: Wakers::default(),
            handles: 2,
            values: 0,
        }
    }

    fn step(&mut self) {
        let is_sender = self.random.below(self.pace) == 0;
        if !self.senders.is_empty() && (is_sender || self.receivers.is_empty()) {
            self.by_sender();
        } else if !self.receivers.is_empty() {
            self.by_receiver();
        }
    }

    fn made_receiver(&mut self, word: &'static str, of: u32, made: B::Receiver) {
        seen::call(word, of, Answer::New(self.handles));
        self.receivers.push(Seat::new(self.handles, made));
        self.handles += 1;
    }

    fn by_sender(&mut self) {
        let at = self.random.below(self.senders.len());
        let number = self.senders[at].number;
        let has_room = self.senders.len() < MOST;
        let sender = self.senders[at].alone();
        match self.random.below(16) {
            0..=1 if self.receivers.len() < MOST => {
                let made = B::subscribe(sender);
                self.made_receiver("subscribe", number, made);
            }
            2 if has_room => {
                let made = Seat::new(self.handles, sender.clone());
                seen::call("clone-sender", number, Answer::New(self.handles));
                self.senders.push(made);
                self.handles += 1;
            }
            3 if self.random.below(3) == 0 => drop(self.senders.swap_remove(at)),
            4 => {
                let count = B::receiver_count(sender);
                seen::call("receiver-count", number, Answer::Count(count));
            }
            _ => {
                let answer = B::send(sender, Value::new(self.values));
                seen::call_with("send", number, self.values, answer);
                self.values += 1;
            }
        }
    }

    fn by_receiver(&mut self) {
        let at = self.random.below(self.receivers.len());
        let seat = &mut self.receivers[at];
        if seat.waits() == 0 {
            return self.by_free(at);
        }
        match self.random.below(12) {
            0 => seat.cancel(0),
            1..=2 if self.forgets => seat.forget(0),
            3 if self.random.below(2) == 0 => drop(self.receivers.swap_remove(at)),
            word => seat.poll(0, &mut self.wakers, word < 7),
        }
    }

    /// A call on a receiver on which no call waits.
    fn by_free(&mut self, at: usize) {
        let has_room = self.receivers.len() < MOST;
        let seat = &mut self.receivers[at];
        let number = seat.number;
        match self.random.below(14) {
            0..=3 => {
                let answer = B::try_recv(seat.alone());
                seen::call("try-recv", number, answer);
            }
            4 if has_room => {
                let made = B::resubscribe(seat.alone());
                self.made_receiver("resubscribe", number, made);
            }
            5 => drop(self.receivers.swap_remove(at)),
            6 => {
                let count = B::len(seat.alone());
                seen::call("receiver-len", number, Answer::Count(count));
            }
            _ => seat.begin("recv", |it| B::recv(it), &mut self.wakers),
        }
    }

    /// Polls what waits, and drops all handles in a random order.
    fn end(mut self) {
        while self.senders.len() + self.receivers.len() > 0 {
            let is_sender = self.random.below(2) == 0;
            if !self.senders.is_empty() && (is_sender || self.receivers.is_empty()) {
                let at = self.random.below(self.senders.len());
                self.senders.swap_remove(at);
            } else {
                let at = self.random.below(self.receivers.len());
                let mut seat = self.receivers.swap_remove(at);
                if seat.waits() > 0 {
                    seat.poll(0, &mut self.wakers, false);
                }
            }
        }
    }
}

/// Plays the script of a seed.
pub fn play<B: Broadcast>(seed: u64) {
    let mut script = Script::<B>::open(seed);
    for _ in 0..40 + script.random.below(80) {
        script.step();
    }
    script.end();
}
