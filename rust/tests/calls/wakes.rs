//! Who is woken, how often and in which order, beside lists that are kept by hand, and who waits,
//! beside what the documentation says that each call would reply: in random scripts, and in all
//! orders of three actors.

use crate::support::random::Random;
use std::future::Future;
use std::pin::Pin;
use std::sync::{Arc, Mutex};
use std::task::{Context, Poll, Wake, Waker};
use yovanelum::{ChannelSnapshot, Polled, Recorder, broadcast, watch};

/// A waker that notes its number where it is woken.
struct Noting {
    number: usize,
    woken: Arc<Mutex<Vec<usize>>>,
}

impl Wake for Noting {
    fn wake(self: Arc<Self>) {
        self.woken.lock().unwrap().push(self.number);
    }
}

/// A channel of either kind: what a script does with it.
trait Tried {
    type Receiver;
    type Sender: Clone + Send + 'static;
    const IS_WATCH: bool;

    fn open() -> (Self::Sender, Self::Receiver);
    fn subscribe(sender: &Self::Sender) -> Self::Receiver;
    fn send(sender: &Self::Sender);
    fn poll(receiver: &mut Self::Receiver, context: &Context<'_>) -> Poll<bool>;
    fn closed(sender: Self::Sender) -> Pin<Box<dyn Future<Output = ()>>>;
}

struct Broadcast;

impl Tried for Broadcast {
    type Receiver = Polled<broadcast::Receiver<u32>>;
    type Sender = broadcast::Sender<u32>;
    const IS_WATCH: bool = false;

    fn open() -> (Self::Sender, Self::Receiver) {
        let (tx, rx) = broadcast::channel(256);
        (tx, Polled::new(rx))
    }

    fn subscribe(sender: &Self::Sender) -> Self::Receiver {
        Polled::new(sender.subscribe())
    }

    fn send(sender: &Self::Sender) {
        let _ = sender.send(7);
    }

    fn poll(receiver: &mut Self::Receiver, context: &Context<'_>) -> Poll<bool> {
        receiver.poll_recv(context).map(|received| received.is_ok())
    }

    fn closed(sender: Self::Sender) -> Pin<Box<dyn Future<Output = ()>>> {
        Box::pin(async move { sender.closed().await })
    }
}

struct Watch;

impl Tried for Watch {
    type Receiver = Polled<watch::Receiver<u32>>;
    type Sender = watch::Sender<u32>;
    const IS_WATCH: bool = true;

    fn open() -> (Self::Sender, Self::Receiver) {
        let (tx, rx) = watch::channel(7);
        (tx, Polled::new(rx))
    }

    fn subscribe(sender: &Self::Sender) -> Self::Receiver {
        Polled::new(sender.subscribe())
    }

    fn send(sender: &Self::Sender) {
        // This one tells nobody.
        assert!(!sender.send_if_modified(|_| false));
        let _ = sender.send(7);
    }

    fn poll(receiver: &mut Self::Receiver, context: &Context<'_>) -> Poll<bool> {
        receiver
            .poll_changed(context)
            .map(|changed| changed.is_ok())
    }

    fn closed(sender: Self::Sender) -> Pin<Box<dyn Future<Output = ()>>> {
        Box::pin(async move { sender.closed().await })
    }
}

/// A receiver with what the lists by hand have of it.
struct Receiving<R> {
    receiver: R,
    unread: u32,
    waits: bool,
}

/// A future that waits until no receiver is alive, with its number.
struct Closing {
    future: Pin<Box<dyn Future<Output = ()>>>,
    waits: bool,
    // Whether no receiver was alive after some step since its last poll.
    is_ready: bool,
}

/// A channel, and beside it the lists by hand. Each waiter has a number of its own.
struct Trial<C: Tried> {
    recorder: Recorder,
    woken: Arc<Mutex<Vec<usize>>>,
    expected: Vec<usize>,
    senders: Vec<C::Sender>,
    receivers: Vec<Option<Receiving<C::Receiver>>>,
    closing: Vec<Option<Closing>>,
    // The numbers of those that are to be woken by a value, and by the end of the receivers.
    for_value: Vec<usize>,
    for_no_receiver: Vec<usize>,
}

/// What the numbers of futures that wait until no receiver is alive begin with.
const CLOSING: usize = 1000;

impl<C: Tried> Trial<C> {
    fn new() -> Trial<C> {
        let recorder = Recorder::new();
        let (sender, receiver) = {
            let _entered = recorder.enter();
            C::open()
        };
        let mut trial = Trial {
            recorder,
            woken: Arc::default(),
            expected: vec![],
            senders: vec![sender],
            receivers: vec![],
            closing: vec![],
            for_value: vec![],
            for_no_receiver: vec![],
        };
        trial.add_receiver(receiver);
        trial
    }

    fn waker(&self, number: usize) -> Waker {
        let woken = self.woken.clone();
        Waker::from(Arc::new(Noting { number, woken }))
    }

    fn add_receiver(&mut self, receiver: C::Receiver) {
        self.receivers.push(Some(Receiving {
            receiver,
            unread: 0,
            waits: false,
        }));
    }

    /// How many senders are alive: those of futures too.
    fn all_senders(&self) -> usize {
        self.senders.len() + self.closing.iter().flatten().count()
    }

    fn wake_for_value(&mut self) {
        self.expected.append(&mut self.for_value);
    }

    fn subscribe(&mut self) {
        if let Some(sender) = self.senders.first() {
            let receiver = C::subscribe(sender);
            self.add_receiver(receiver);
        }
    }

    fn send(&mut self) {
        let Some(sender) = self.senders.first() else {
            return;
        };
        C::send(sender);
        if self.receivers.iter().flatten().next().is_none() {
            return;
        }
        for receiving in self.receivers.iter_mut().flatten() {
            receiving.unread = if C::IS_WATCH { 1 } else { receiving.unread + 1 };
        }
        self.wake_for_value();
    }

    fn poll(&mut self, number: usize) {
        let (waker, senders) = (self.waker(number), self.all_senders());
        let Some(Some(receiving)) = self.receivers.get_mut(number) else {
            return;
        };
        let polled = C::poll(&mut receiving.receiver, &Context::from_waker(&waker));
        let expected = match receiving.unread {
            0 if senders > 0 => Poll::Pending,
            0 => Poll::Ready(false),
            _ => Poll::Ready(true),
        };
        assert_eq!(polled, expected, "receiver {number}");
        receiving.unread -= u32::from(polled == Poll::Ready(true));
        receiving.waits = polled.is_pending();
        if polled.is_pending() && !self.for_value.contains(&number) {
            self.for_value.push(number);
        }
    }

    fn drop_receiver(&mut self, number: usize) {
        let Some(receiving) = self.receivers.get_mut(number) else {
            return;
        };
        if receiving.take().is_none() {
            return;
        }
        self.for_value.retain(|it| *it != number);
        if self.receivers.iter().flatten().next().is_none() {
            self.expected.append(&mut self.for_no_receiver);
        }
    }

    fn clone_sender(&mut self) {
        if let Some(sender) = self.senders.first() {
            self.senders.push(sender.clone());
        }
    }

    fn drop_sender(&mut self) {
        if self.senders.pop().is_some() && self.all_senders() == 0 {
            self.wake_for_value();
        }
    }

    fn close(&mut self) {
        if let Some(sender) = self.senders.first() {
            let future = C::closed(sender.clone());
            self.closing.push(Some(Closing {
                future,
                waits: false,
                is_ready: false,
            }));
        }
    }

    fn wait_for_the_end(&mut self) {
        self.close();
        self.poll_closing(0);
    }

    fn poll_closing(&mut self, index: usize) {
        let waker = self.waker(CLOSING + index);
        let Some(Some(closing)) = self.closing.get_mut(index) else {
            return;
        };
        let polled = closing
            .future
            .as_mut()
            .poll(&mut Context::from_waker(&waker));
        closing.waits = polled.is_pending();
        closing.is_ready = false;
        let has_receiver = self.receivers.iter().flatten().next().is_some();
        assert_eq!(polled.is_pending(), has_receiver, "closed {index}");
        if polled.is_ready() {
            self.drop_closing(index);
        } else if !self.for_no_receiver.contains(&(CLOSING + index)) {
            self.for_no_receiver.push(CLOSING + index);
        }
    }

    fn drop_closing(&mut self, index: usize) {
        let Some(closing) = self.closing.get_mut(index) else {
            return;
        };
        if closing.take().is_none() {
            return;
        }
        self.for_no_receiver.retain(|it| *it != CLOSING + index);
        if self.all_senders() == 0 {
            self.wake_for_value();
        }
    }

    /// Compares who was woken, in order, and how many calls are listed: those that were polled and
    /// have not ended.
    fn check(&mut self) {
        assert_eq!(*self.woken.lock().unwrap(), self.expected);
        let receiving = self.receivers.iter().flatten().filter(|it| it.waits);
        let closing = self.closing.iter().flatten().filter(|it| it.waits);
        let waiting = receiving.count() + closing.count();
        assert_eq!(self.recorder.waiting().len(), waiting);
        if self.receivers.iter().flatten().next().is_none() {
            let closing = self.closing.iter_mut().flatten();
            closing.for_each(|it| it.is_ready = true);
        }
        self.check_who_waits();
    }

    /// Compares which of the listed calls wait with the reply that the documentation gives each in
    /// the channel as it is: a receive waits if nothing is unread and a sender is alive, and
    /// `closed` if a receiver is. All others were woken, and say so. That also holds for a `closed`
    /// that was woken where a receiver is created again, before somebody polls it: polled, it
    /// would wait again, and nothing but that poll lists it.
    fn check_who_waits(&self) {
        let (senders, receivers) = (self.all_senders(), self.receivers.iter().flatten().count());
        let would_wait = |unread| unread == 0 && senders > 0;
        let begun = self.receivers.iter().flatten().filter(|it| it.waits);
        let receiving = begun.filter(|it| would_wait(it.unread)).count();
        let closing = self.closing.iter().flatten().filter(|it| it.waits);
        let closing = closing.filter(|it| !it.is_ready).count();
        assert!(closing == 0 || receivers > 0);
        let waiting = self.recorder.waiting().into_iter();
        let waiting = waiting.filter(|it| !it.is_woken());
        let (of_senders, of_receivers): (Vec<_>, Vec<_>) =
            waiting.partition(|it| it.call() == "closed");
        assert_eq!((of_receivers.len(), of_senders.len()), (receiving, closing));

        // Each receiver, also with what the core says of its unread values.
        let snapshot = self.recorder.snapshot();
        let channel = snapshot.channels().iter().next();
        let said = channel.map_or(&[][..], ChannelSnapshot::receivers).iter();
        let said = said.map(|it| {
            let unread = u32::try_from(it.unread()).unwrap();
            (it.waits_in().is_some(), it.woken_in().is_some(), unread)
        });
        let wanted = self.receivers.iter().flatten().map(|it| {
            let would_wait = would_wait(it.unread);
            (it.waits && would_wait, it.waits && !would_wait, it.unread)
        });
        assert!(said.eq(wanted));
    }

    fn random_step(&mut self, random: &mut Random) {
        let of_receivers = random.below(self.receivers.len());
        let of_closing = random.below(self.closing.len() + 1);
        match random.below(20) {
            0..=7 => self.poll(of_receivers),
            8..=10 => self.send(),
            11..=12 => self.drop_receiver(of_receivers),
            13 => self.subscribe(),
            14 => self.clone_sender(),
            15 => self.drop_sender(),
            16 => self.close(),
            17..=18 => self.poll_closing(of_closing),
            _ => self.drop_closing(of_closing),
        }
        self.check();
    }
}

fn random_scripts<C: Tried>(scripts: u64) {
    for seed in 0..scripts {
        let mut random = Random::new(seed);
        let mut trial = Trial::<C>::new();
        (0..40).for_each(|_| trial.random_step(&mut random));
    }
}

#[test]
fn a_broadcast_wakes_as_lists_by_hand_do() {
    random_scripts::<Broadcast>(500);
}

#[test]
fn a_watch_wakes_as_lists_by_hand_do() {
    random_scripts::<Watch>(500);
}

/// One step of an actor.
type Step<C> = fn(&mut Trial<C>);

/// Makes the steps of the actors in each order, each in a channel of its own. Returns how many
/// orders there are.
fn in_each_order<C: Tried>(actors: &[&[Step<C>]; 3], made: &mut Vec<usize>) -> usize {
    let counts = [0, 1, 2].map(|actor| made.iter().filter(|it| **it == actor).count());
    let left: Vec<_> = (0..3)
        .filter(|actor| counts[*actor] < actors[*actor].len())
        .collect();
    if left.is_empty() {
        let mut trial = Trial::new();
        trial.subscribe();
        let mut next = [0; 3];
        for actor in made {
            actors[*actor][next[*actor]](&mut trial);
            next[*actor] += 1;
            trial.check();
        }
        return 1;
    }
    let mut orders = 0;
    for actor in left {
        made.push(actor);
        orders += in_each_order(actors, made);
        made.pop();
    }
    orders
}

/// Two receivers that wait twice each and are dropped, perhaps while they wait or are woken, and a
/// sender that waits for the end of them twice.
fn all_orders<C: Tried>() -> usize {
    let first: [Step<C>; 3] = [|it| it.poll(0), |it| it.poll(0), |it| it.drop_receiver(0)];
    let second: [Step<C>; 3] = [|it| it.poll(1), |it| it.poll(1), |it| it.drop_receiver(1)];
    let third: [Step<C>; 4] = [
        |it| it.wait_for_the_end(),
        |it| it.send(),
        |it| it.poll_closing(0),
        |it| it.drop_sender(),
    ];
    in_each_order(&[&first, &second, &third], &mut vec![])
}

#[test]
fn each_order_of_three_actors_wakes_as_lists_by_hand_do() {
    // 10! / (3! 3! 4!)
    assert_eq!(all_orders::<Broadcast>(), 4200);
    assert_eq!(all_orders::<Watch>(), 4200);
}
