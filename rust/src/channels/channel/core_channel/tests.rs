//! A channel whose machines make few handles each and take out the dropped ones, beside one machine
//! that makes them all: the same replies to random calls.

use super::{CoreChannel, MOST_HANDLES};
use crate::channels::backend::{Actor, Caller, Recording, Spec};
use crate::channels::handle::Kind;
use crate::channels::results::ReplyResult;
use yovanelum_record::reply::Reply;

const CALLER: Caller = Caller {
    actor: Actor::FIRST,
    clock: 0,
};

/// Random numbers from a seed (xorshift64*).
struct Random(u64);

impl Random {
    fn below(&mut self, n: usize) -> usize {
        self.0 ^= self.0 >> 12;
        self.0 ^= self.0 << 25;
        self.0 ^= self.0 >> 27;
        (self.0.wrapping_mul(0x2545_F491_4F6C_DD1D) >> 33) as usize % n
    }
}

/// A live handle, by its numbers in both. The one machine uses no number again, so that number says
/// how many handles were created before.
#[derive(Clone, Copy)]
struct Handle {
    kind: Kind,
    in_many: u32,
    in_one: u32,
}

/// A channel of several machines, and one of a single machine.
struct Pair {
    many: CoreChannel,
    one: Recording,
    handles: Vec<Handle>,
    values: u64,
    random: Random,
    renumbered: usize,
    // How often handles had the machine's numbers after a renumbering.
    as_in_machine: usize,
}

/// Makes a call on both by one handle, and compares the replies.
macro_rules! on_both {
    ($pair:ident, $method:ident, $handle:ident $(, $arg:expr)*) => {{
        let many = $pair.many.$method(CALLER, $handle.in_many $(, $arg)*);
        let one = $pair.one.$method(CALLER, $handle.in_one $(, $arg)*);
        $pair.assert_same(many, one);
        (many, one)
    }};
}

/// The same for a call that creates a handle.
macro_rules! create_on_both {
    ($pair:ident, $method:ident, $handle:ident, $kind:expr) => {
        let (many, one) = on_both!($pair, $method, $handle);
        if let (Reply::New(in_many), Reply::New(in_one)) = (many, one) {
            $pair.handles.push(Handle {
                kind: $kind,
                in_many: in_many as u32,
                in_one: in_one as u32,
            });
        }
    };
}

impl Pair {
    fn open(spec: Spec<u64>, most: u32, seed: u64) -> Pair {
        let handle = |kind, number| Handle {
            kind,
            in_many: number,
            in_one: number,
        };
        let is_recorded = seed % 2 == 0;
        let open = if is_recorded {
            Recording::open
        } else {
            Recording::open_unrecorded
        };
        Pair {
            many: CoreChannel::of_most(open(spec).unwrap(), most),
            one: Recording::open(spec).unwrap(),
            handles: vec![handle(Kind::Sender, 0), handle(Kind::Receiver, 1)],
            values: 0,
            random: Random(seed.wrapping_mul(0x9E37_79B9_7F4A_7C15) | 1),
            renumbered: 0,
            as_in_machine: 0,
        }
    }

    fn assert_same(&self, many: Reply, one: Reply) {
        match (many, one) {
            (Reply::New(_), Reply::New(_)) => {}
            // A machine that had no receivers at a send has another value, which nobody sees.
            (Reply::Value(_), Reply::Value(_)) | (Reply::Old(_), Reply::Old(_))
                if self.is_watch() => {}
            _ => assert_eq!(many, one),
        }
    }

    fn is_watch(&self) -> bool {
        matches!(self.one.spec(), Spec::Watch(_))
    }

    /// A random live handle of a kind, and where it is in the list.
    fn pick(&mut self, kind: Kind) -> Option<(usize, Handle)> {
        let of_kind = self.handles.iter().copied().enumerate();
        let of_kind: Vec<_> = of_kind.filter(|(_, handle)| handle.kind == kind).collect();
        match of_kind.len() {
            0 => None,
            count => Some(of_kind[self.random.below(count)]),
        }
    }

    /// Makes a random call of a broadcast on both. A handle is created only while fewer than these
    /// are alive, and dropped where more are.
    fn step_broadcast(&mut self, most_alive: usize) {
        let kind = [Kind::Sender, Kind::Receiver, Kind::WeakSender][self.random.below(3)];
        let Some((index, handle)) = self.pick(kind) else {
            return;
        };
        let may_create = self.handles.len() < most_alive;
        let is_dropped = self.handles.len() > most_alive;
        match self.random.below(9) {
            call if is_dropped || call == 0 && self.handles.len() > 2 => {
                self.handles.swap_remove(index);
                on_both!(self, broadcast_drop, handle);
            }
            call if kind == Kind::Sender => self.step_broadcast_sender(call, handle, may_create),
            call if kind == Kind::Receiver => {
                self.step_broadcast_receiver(call, handle, may_create)
            }
            1..=3 if may_create => {
                create_on_both!(self, broadcast_upgrade, handle, Kind::Sender);
            }
            4..=5 if may_create => {
                create_on_both!(self, broadcast_clone_weak, handle, Kind::WeakSender);
            }
            _ => {}
        }
    }

    fn step_broadcast_sender(&mut self, call: usize, sender: Handle, may_create: bool) {
        match call {
            1 if may_create => {
                create_on_both!(self, broadcast_subscribe, sender, Kind::Receiver);
            }
            2 if may_create => {
                create_on_both!(self, broadcast_clone_sender, sender, Kind::Sender);
            }
            3 if may_create => {
                create_on_both!(self, broadcast_downgrade, sender, Kind::WeakSender);
            }
            4 => {
                on_both!(self, broadcast_sender_len, sender);
                on_both!(self, broadcast_receiver_count, sender);
            }
            _ => {
                self.values += 1;
                on_both!(self, broadcast_send, sender, self.values);
            }
        }
    }

    fn step_broadcast_receiver(&mut self, call: usize, receiver: Handle, may_create: bool) {
        match call {
            1..=2 if may_create => {
                create_on_both!(self, broadcast_resubscribe, receiver, Kind::Receiver);
            }
            3 => {
                on_both!(self, broadcast_receiver_len, receiver);
            }
            4..=5 => {
                on_both!(self, broadcast_recv, receiver);
            }
            _ => {
                on_both!(self, broadcast_try_recv, receiver);
            }
        }
    }

    /// Makes a random call of a watch on both. A handle is created only while fewer than these are
    /// alive, and dropped where more are.
    fn step_watch(&mut self, most_alive: usize) {
        let kind = [Kind::Sender, Kind::Receiver][self.random.below(2)];
        let Some((index, handle)) = self.pick(kind) else {
            return;
        };
        let may_create = self.handles.len() < most_alive;
        let is_dropped = self.handles.len() > most_alive;
        match self.random.below(11) {
            call if is_dropped || call == 0 && self.handles.len() > 2 => {
                self.handles.swap_remove(index);
                on_both!(self, watch_drop, handle);
            }
            call if kind == Kind::Sender => self.step_watch_sender(call, handle, may_create),
            call => self.step_watch_receiver(call, handle, may_create),
        }
    }

    fn step_watch_sender(&mut self, call: usize, sender: Handle, may_create: bool) {
        self.values += 1;
        match call {
            1..=2 if may_create => {
                create_on_both!(self, watch_subscribe, sender, Kind::Receiver);
            }
            3 if may_create => {
                create_on_both!(self, watch_clone_sender, sender, Kind::Sender);
            }
            4..=5 => {
                on_both!(self, watch_receiver_count, sender);
                on_both!(self, watch_is_closed, sender);
                on_both!(self, watch_closed, sender);
            }
            6 => {
                on_both!(self, watch_send_replace, sender, self.values);
            }
            7 => {
                let (told, value) = (self.random.below(2) == 0, self.values);
                let many = self.many.watch_modify(CALLER, sender.in_many, told, value);
                let one = self.one.watch_modify(CALLER, sender.in_one, told, value);
                self.assert_same(many, one);
            }
            _ => {
                on_both!(self, watch_send, sender, self.values);
            }
        }
    }

    fn step_watch_receiver(&mut self, call: usize, receiver: Handle, may_create: bool) {
        match call {
            1..=3 if may_create => {
                create_on_both!(self, watch_clone_receiver, receiver, Kind::Receiver);
            }
            4 => {
                on_both!(self, watch_mark_changed, receiver);
            }
            5 => {
                on_both!(self, watch_mark_unchanged, receiver);
            }
            6..=7 => {
                on_both!(self, watch_changed, receiver);
            }
            8 => {
                on_both!(self, watch_update, receiver);
            }
            9 => {
                on_both!(self, watch_borrow, receiver);
            }
            _ => {
                on_both!(self, watch_has_changed, receiver);
            }
        }
    }

    /// Takes the dropped handles out of a random machine, now and then. Recording ends before.
    fn renumber_sometimes(&mut self) {
        if self.random.below(20) != 0 {
            return;
        }
        self.many.end();
        let number = self.random.below(self.many.further.len() + 1);
        let is_there = number == 0 || self.many.further[number - 1].is_some();
        if is_there && self.many.renumber(number).is_some() {
            self.renumbered += 1;
            self.as_in_machine += usize::from(!self.many.numbers.are_own());
        }
    }

    /// Compares what both show.
    fn assert_shown(&mut self) {
        let counts = (
            self.many.senders(),
            self.many.weak_senders(),
            self.many.receivers(),
            self.many.queued(),
        );
        let wanted = (
            self.one.senders(),
            self.one.weak_senders(),
            self.one.receivers(),
            self.one.queued(),
        );
        assert_eq!(counts, wanted);
        for handle in self.handles.clone() {
            assert_eq!(self.many.nth(handle.in_many), handle.in_one.into());
            match (handle.kind, self.is_watch()) {
                (Kind::Receiver, true) => {
                    assert_eq!(self.many.seen(handle.in_many), self.one.seen(handle.in_one));
                }
                (Kind::Receiver, false) => {
                    let unread = self.many.unread(handle.in_many);
                    assert_eq!(unread, self.one.unread(handle.in_one));
                }
                _ => {}
            }
        }
    }

    fn machines_alive(&mut self) -> usize {
        self.many.machines().count()
    }
}

/// How many runs of random calls are compared: 500, or as many as the variable `YOVANELUM_RUNS`
/// says. Miri needs a second for each.
fn seeds() -> u64 {
    match std::env::var("YOVANELUM_RUNS") {
        Ok(wanted) => wanted.parse().unwrap(),
        Err(_) if cfg!(miri) => 10,
        Err(_) => 500,
    }
}

/// What happened in many runs of random calls.
#[derive(Default)]
struct Played {
    // How many further machines were opened at most.
    most_opened: usize,
    // How often all of them were dropped again.
    alone_again: usize,
    renumbered: usize,
    as_in_machine: usize,
}

/// Makes 200 random calls on both, for each seed. By turns many handles may be alive, and two.
fn play(spec_of: impl Fn(&mut Random) -> Spec<u64>, step: fn(&mut Pair, usize)) -> Played {
    let mut played = Played::default();
    for seed in 0..seeds() {
        let mut random = Random(seed * 2 + 1);
        let spec = spec_of(&mut random);
        let mut pair = Pair::open(spec, 4 + random.below(5) as u32, seed);
        let many = 3 + random.below(20);
        for call in 0..200 {
            let opened = pair.many.further.len();
            step(&mut pair, if call % 80 < 60 { many } else { 2 });
            pair.renumber_sometimes();
            if call % 5 == 0 {
                pair.assert_shown();
            }
            played.most_opened = played.most_opened.max(pair.many.further.len());
            played.alone_again += usize::from(opened > 0 && pair.many.further.is_empty());
        }
        pair.assert_shown();
        // Each machine has a live handle, but the first and the newest.
        assert!(
            pair.machines_alive() <= pair.handles.len() + 2,
            "seed {seed}"
        );
        played.renumbered += pair.renumbered;
        played.as_in_machine += pair.as_in_machine;
    }
    played
}

impl Played {
    /// Whether each of these things has happened often.
    fn assert_all(&self) {
        assert!(self.most_opened > 3, "{}", self.most_opened);
        assert!(
            self.alone_again as u64 >= seeds() / 10,
            "{}",
            self.alone_again
        );
        assert!(self.renumbered as u64 > seeds(), "{}", self.renumbered);
        assert!(
            self.as_in_machine as u64 > seeds() / 4,
            "{}",
            self.as_in_machine
        );
    }
}

#[test]
fn machines_of_a_broadcast_reply_as_one_that_keeps_dropped_handles() {
    let spec = |random: &mut Random| Spec::Broadcast(1 + random.below(5) as u32);
    play(spec, Pair::step_broadcast).assert_all();
}

#[test]
fn machines_of_a_watch_reply_as_one_that_keeps_dropped_handles() {
    play(|_| Spec::Watch(0), Pair::step_watch).assert_all();
}

/// Subscribes and drops receivers, of which each n-th one stays. Returns those that are alive.
fn subscribe(channel: &mut CoreChannel, count: u32, kept: u32) -> Vec<u32> {
    let mut alive = Vec::new();
    for round in 1..=count {
        let receiver = channel.broadcast_subscribe(CALLER, 0).new_handle();
        match round % kept {
            0 => alive.push(receiver),
            _ => assert_eq!(channel.broadcast_drop(CALLER, receiver), Reply::Dropped),
        }
    }
    alive
}

#[test]
fn dropped_handles_are_taken_out_of_the_one_machine_and_numbers_are_used_again() {
    let mut channel = CoreChannel::of_most(Recording::open(Spec::Broadcast(2)).unwrap(), 256);
    channel.end();
    let alive = subscribe(&mut channel, 20_000, 200);
    assert!(channel.further.is_empty());
    assert_eq!(channel.broadcast_send(CALLER, 0, 7), Reply::Sent(101));
    for (index, receiver) in (1..).zip(&alive) {
        assert_eq!(channel.nth(*receiver), index * 200 + 1);
        assert_eq!(channel.broadcast_recv(CALLER, *receiver), Reply::Value(7));
    }
    // Those that were there before, and one that is dropped beside them.
    let greatest = alive.iter().max().unwrap();
    assert!(*greatest < 256, "{greatest}");
}

#[test]
fn while_a_channel_is_recorded_a_handle_has_the_number_of_the_journal() {
    let mut channel = CoreChannel::of_most(Recording::open(Spec::Broadcast(2)).unwrap(), 256);
    for number in 2..256 {
        assert!(!channel.has_named_all());
        let receiver = channel.broadcast_subscribe(CALLER, 0).new_handle();
        assert_eq!(receiver, number);
        assert_eq!(channel.broadcast_drop(CALLER, receiver), Reply::Dropped);
    }
    assert!(channel.has_named_all());
    channel.end();
    // None of these numbers is that of another handle later, and dropped ones of later handles are.
    let alive = subscribe(&mut channel, 10_000, 100);
    assert!(alive.iter().all(|number| (256..512).contains(number)));
    assert_eq!(channel.broadcast_send(CALLER, 0, 7), Reply::Sent(101));
}

#[test]
fn once_few_handles_are_left_without_a_journal_they_have_the_numbers_of_their_machine() {
    let core = Recording::open_unrecorded(Spec::Broadcast(2)).unwrap();
    let mut channel = CoreChannel::of_most(core, 256);
    let alive = subscribe(&mut channel, 1_000, 100);
    assert!(channel.numbers.are_own());
    for receiver in &alive {
        assert_eq!(channel.broadcast_drop(CALLER, *receiver), Reply::Dropped);
    }
    assert!(subscribe(&mut channel, 1_000, 2_000).is_empty());
    assert!(!channel.numbers.are_own());
    let last = channel.broadcast_subscribe(CALLER, 0).new_handle();
    assert_eq!([channel.nth(0), channel.nth(1)], [0, 1]);
    assert_eq!(channel.nth(last), 2_002);
}

#[test]
fn further_machines_stay_while_more_handles_are_alive_than_one_makes() {
    let mut channel = CoreChannel::of_most(Recording::open(Spec::Broadcast(2)).unwrap(), 256);
    channel.end();
    for _ in 0..10 {
        let alive = subscribe(&mut channel, 1_000, 1);
        // Each further machine has two handles that are nobody's, and one that it was opened with
        // is dropped.
        assert_eq!(channel.machines().count(), 4);
        assert_eq!(channel.broadcast_send(CALLER, 0, 7), Reply::Sent(1_001));
        for receiver in alive {
            assert_eq!(channel.broadcast_recv(CALLER, receiver), Reply::Value(7));
            assert_eq!(channel.broadcast_drop(CALLER, receiver), Reply::Dropped);
        }
        assert!(channel.further.is_empty());
    }
}

#[test]
fn the_first_machine_makes_as_many_handles_as_a_journal_names() {
    let mut channel = CoreChannel::new(Recording::open(Spec::Watch(0)).unwrap());
    for made in 2..MOST_HANDLES {
        assert!(!channel.has_named_all());
        assert_eq!(channel.watch_subscribe(CALLER, 0).new_handle(), made);
    }
    assert!(channel.has_named_all());
    assert_eq!(
        channel.watch_subscribe(CALLER, 0),
        Reply::New(MOST_HANDLES.into())
    );
    assert_eq!(channel.further.len(), 1);
    assert_eq!(
        channel.watch_receiver_count(CALLER, 0),
        Reply::Count(65_536)
    );
}
