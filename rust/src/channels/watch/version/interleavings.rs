//! All interleavings of the calls of two senders and two receivers of a watch: after each step in
//! which the channel's lock is free, the atomic is what the core's state says, and each look
//! returns what the core would have replied at a moment between its begin and its end.
//!
//! A call that changes the watch has four steps: it locks the channel, has the core make the call,
//! writes the atomic, and unlocks the channel. A look is one step.

use super::{SeenVersion, Version};
use crate::channels::backend::{Caller, Recording, Spec};
use crate::channels::channel::{CoreChannel, HandleCounts};
use crate::channels::handle::Kind;
use yovanelum_record::reply::Reply;

/// What a thread does.
#[derive(Clone, Copy, Debug, PartialEq)]
enum Act {
    Send(u32),
    ModifyUnnoticed(u32),
    DropSender(u32),
    See(usize),
    MarkChanged(usize),
    /// A look by the receiver with this index.
    Look(usize),
}

/// The steps of an act, and where each thread is in its acts.
const STEPS: usize = 4;

struct WatchModel {
    core: CoreChannel,
    version: Version,
    counts: HandleCounts,
    // The numbers of two receivers, and what they have seen.
    receivers: [(u32, SeenVersion); 2],
    held_by: Option<usize>,
    values: u64,
    reply: Option<Reply>,
    // What looks may return: what the core replied before the call that is made, and after it.
    before: [Option<bool>; 2],
    senders_before: u64,
}

impl WatchModel {
    fn open() -> WatchModel {
        let core = Recording::open_unrecorded(Spec::Watch(0)).ok().unwrap();
        let mut core = CoreChannel::new(core);
        let caller = Caller::UNRECORDED;
        let Reply::New(other) = core.watch_clone_receiver(caller, 1) else {
            panic!("no receiver")
        };
        let Reply::New(sender) = core.watch_clone_sender(caller, 0) else {
            panic!("no sender")
        };
        assert_eq!(sender, 3);
        let counts = HandleCounts::opened();
        counts.add(Kind::Receiver);
        counts.add(Kind::Sender);
        let mut watch = WatchModel {
            core,
            version: Version::default(),
            counts,
            receivers: [
                (1, SeenVersion::default()),
                (other as u32, SeenVersion::default()),
            ],
            held_by: None,
            values: 1,
            reply: None,
            before: [None; 2],
            senders_before: 2,
        };
        watch.before = [watch.of_core(0), watch.of_core(1)];
        watch
    }

    /// What the core replies to `has_changed`.
    fn of_core(&mut self, receiver: usize) -> Option<bool> {
        let number = self.receivers[receiver].0;
        match self.core.senders() {
            0 => None,
            _ => Some(!self.core.seen(number)),
        }
    }

    /// Makes the step of an act. Returns `false` if it has to wait for the lock.
    fn step(&mut self, thread: usize, act: Act, step: usize) -> bool {
        let caller = Caller::UNRECORDED;
        if let Act::Look(receiver) = act {
            let seen = &self.receivers[receiver].1;
            let looked = self.version.changed_since(seen);
            let senders = self.counts.of(Kind::Sender) as u64;
            let (before, now) = (self.before[receiver], self.of_core(receiver));
            assert!(
                looked == before || looked == now,
                "{looked:?}: {before:?} or {now:?}"
            );
            let now = self.core.senders();
            assert!(senders == self.senders_before || senders == now);
            return true;
        }
        match step {
            0 if self.held_by.is_some() => return false,
            0 => self.held_by = Some(thread),
            1 => {
                self.before = [self.of_core(0), self.of_core(1)];
                self.senders_before = self.core.senders();
                let reply = match act {
                    Act::Send(sender) => {
                        self.values += 1;
                        self.core.watch_send(caller, sender, self.values)
                    }
                    Act::ModifyUnnoticed(sender) => {
                        self.values += 1;
                        self.core.watch_modify(caller, sender, false, self.values)
                    }
                    Act::DropSender(sender) => self.core.watch_drop(caller, sender),
                    Act::See(receiver) => {
                        let number = self.receivers[receiver].0;
                        self.core.watch_update(caller, number)
                    }
                    Act::MarkChanged(receiver) => {
                        let number = self.receivers[receiver].0;
                        self.core.watch_mark_changed(caller, number)
                    }
                    Act::Look(_) => unreachable!("it has one step"),
                };
                self.reply = Some(reply);
            }
            2 => self.write(act),
            _ => {
                self.held_by = None;
                self.before = [self.of_core(0), self.of_core(1)];
                self.senders_before = self.core.senders();
            }
        }
        if self.held_by.is_none() {
            self.assert_invariant();
        }
        true
    }

    /// Writes what the crate writes after the core's call.
    fn write(&mut self, act: Act) {
        let reply = self.reply.take().unwrap();
        match act {
            Act::See(receiver) => self.receivers[receiver].1.see(&self.version),
            Act::MarkChanged(receiver) => self.receivers[receiver].1.unsee(&self.version),
            Act::DropSender(_) if self.counts.remove(Kind::Sender) == 0 => {
                self.version.note_close();
            }
            Act::DropSender(_) => {}
            _ if reply.is_change() => self.version.note_change(),
            _ => {}
        }
    }

    /// The lock is free, so the atomic says what the core does.
    fn assert_invariant(&mut self) {
        for receiver in 0..2 {
            let wanted = self.of_core(receiver);
            let number = self.receivers[receiver].0;
            let (_, seen) = &self.receivers[receiver];
            assert_eq!(self.version.changed_since(seen), wanted);
            assert_eq!(self.version.is_unseen_by(seen), !self.core.seen(number));
        }
        assert_eq!(self.counts.of(Kind::Sender) as u64, self.core.senders());
        assert_eq!(self.counts.of(Kind::Receiver) as u64, self.core.receivers());
    }
}

fn steps_of(act: Act) -> usize {
    match act {
        Act::Look(_) => 1,
        _ => STEPS,
    }
}

/// Plays the threads in an order, and returns whose turn may be next, or `None` where one of the
/// order had to wait.
fn played(threads: &[&[Act]], order: &[usize]) -> Option<Vec<usize>> {
    let mut watch = WatchModel::open();
    let mut at = vec![(0, 0); threads.len()];
    for thread in order {
        let (index, step) = at[*thread];
        let act = threads[*thread][index];
        if !watch.step(*thread, act, step) {
            return None;
        }
        at[*thread] = if step + 1 == steps_of(act) {
            (index + 1, 0)
        } else {
            (index, step + 1)
        };
    }
    let goes_on = |thread: &usize| at[*thread].0 < threads[*thread].len();
    Some((0..threads.len()).filter(goes_on).collect())
}

/// Plays all orders of the threads, and returns how many there are.
fn all_orders(threads: &[&[Act]]) -> usize {
    let (mut ended, mut orders) = (0, vec![vec![]]);
    while let Some(order) = orders.pop() {
        let Some(next) = played(threads, &order) else {
            continue;
        };
        if next.is_empty() {
            ended += 1;
        }
        for thread in next {
            let mut order = order.clone();
            order.push(thread);
            orders.push(order);
        }
    }
    ended
}

#[test]
fn looks_return_what_the_core_replies_in_all_interleavings() {
    use Act::*;
    let looks = [Look(0), Look(1), Look(0)];
    let orders = [
        all_orders(&[&[Send(0)], &[Send(3)], &looks]),
        all_orders(&[&[Send(0), See(0)], &[DropSender(3)], &[Look(0), Look(1)]]),
        all_orders(&[&[DropSender(0)], &[DropSender(3)], &looks]),
        all_orders(&[&[ModifyUnnoticed(0), Send(0)], &[See(1)], &[Look(1)]]),
        all_orders(&[&[MarkChanged(0)], &[Send(0)], &[See(1)], &[Look(0)]]),
    ];
    // Two calls of four steps in turn, and three looks among them: twice ways to place three in
    // eleven.
    assert!(
        orders[0] >= 2 * 165 && orders.iter().sum::<usize>() > 1000,
        "{orders:?}"
    );
}
