//! The sending half of a broadcast channel.

use super::error::SendError;
use super::values::{Value, Values};
use super::{BroadcastHandle, Receiver, WeakSender, open};
use crate::channels::channel::{CallSite, CoreChannel, LockedChannel, call_site};
use crate::channels::handle::{Kind, Usual};
use crate::channels::of_version::only_if_tokio_has;
use crate::channels::recorder::{Handle, RecordedHandle, TextOf};
use crate::channels::results::ReplyResult;
use crate::channels::wait::{Method, WaitFor};
use std::fmt;
use std::future::Future;
use std::task::Poll;
use yovanelum_record::operation::Operation;
use yovanelum_record::reply::Reply;

/// The sending half of a broadcast channel.
///
/// [`channel`](super::channel) and [`Sender::new`] create the first sender, `clone` and
/// [`WeakSender::upgrade`] create further ones. As in tokio, a sender may be used from many
/// threads: each method needs only `&self`. The channel is closed when the last sender is dropped.
///
/// # Examples
///
/// ```
/// use std::thread;
/// use yovanelum::broadcast;
///
/// let (bus, mut audit) = broadcast::channel(16);
/// let workers = ["mail", "backup"].map(|job| {
///     let bus = bus.clone();
///     thread::spawn(move || bus.send(job).unwrap())
/// });
/// for worker in workers {
///     assert_eq!(worker.join().unwrap(), 1);
/// }
/// let mut done = [audit.try_recv().unwrap(), audit.try_recv().unwrap()];
/// done.sort();
/// assert_eq!(done, ["backup", "mail"]);
/// ```
pub struct Sender<T> {
    pub(super) handle: BroadcastHandle<T>,
}

impl<T> Sender<T> {
    /// Creates a broadcast channel with this capacity and without a receiver, and returns its first
    /// sender.
    ///
    /// As in tokio, this is [`channel`](super::channel) without the receiver:
    /// [`subscribe`](Sender::subscribe) creates one. The journal begins with the drop of receiver
    /// 1, so the first receiver that is created has the number 2.
    ///
    /// # Panics
    ///
    /// As [`channel`](super::channel).
    ///
    /// # Examples
    ///
    /// ```
    /// use yovanelum::broadcast;
    ///
    /// let bus = broadcast::Sender::new(16);
    /// assert!(bus.send("nobody listens").is_err());
    /// let mut listener = bus.subscribe();
    /// bus.send("started").unwrap();
    /// assert_eq!(listener.try_recv(), Ok("started"));
    /// ```
    #[track_caller]
    pub fn new(capacity: usize) -> Sender<T> {
        only_if_tokio_has!("broadcast::Sender::new");
        // The core opens each channel with a receiver.
        let (sender, receiver) = open(capacity);
        drop(receiver);
        sender
    }

    /// Sends a value to all receivers of the channel, and returns how many there are.
    ///
    /// The call never waits. If the channel is full, the value overwrites the oldest one.
    ///
    /// As in tokio, `Ok` does not mean that a receiver will get the value, since receivers may be
    /// dropped or lag before. `Err` does not mean that later sends will fail, since
    /// [`subscribe`](Sender::subscribe) may create a receiver.
    ///
    /// # Errors
    ///
    /// Returns [`SendError`] with the value if the channel has no receiver. The channel is then
    /// unchanged: the value is not stored, and a receiver that is created later does not get it.
    ///
    /// # Examples
    ///
    /// ```
    /// use yovanelum::broadcast;
    ///
    /// let (prices, chart) = broadcast::channel(4);
    /// let ticker = prices.subscribe();
    /// assert_eq!(prices.send(101).unwrap(), 2);
    /// drop((chart, ticker));
    /// assert_eq!(prices.send(102).unwrap_err().0, 102);
    /// let mut late = prices.subscribe();
    /// assert_eq!(prices.send(103).unwrap(), 1);
    /// assert_eq!(late.try_recv(), Ok(103));
    /// ```
    #[track_caller]
    pub fn send(&self, value: T) -> Result<usize, SendError<T>> {
        let called_at = call_site();
        #[cfg(not(debug_assertions))]
        {
            if Values::<T>::ARE_LARGE {
                self.send_with_text(value, called_at)
            } else {
                self.send_optimized(value, called_at)
            }
        }
        // A function that passes the value on would have it on its stack.
        #[cfg(debug_assertions)]
        {
            let (channel, number) = (&*self.handle.channel, self.handle.number);
            let text = if channel.has_text_of() {
                channel.text(&value)
            } else {
                None
            };
            let recorded = &channel.recorded;
            let locked = recorded.lock_in_turn(number, Operation::Send, called_at);
            self.send_to(locked, value, text)
        }
    }

    #[cfg_attr(debug_assertions, expect(dead_code))]
    #[inline(always)]
    fn send_optimized(&self, value: T, called_at: CallSite) -> Result<usize, SendError<T>> {
        let handle = &self.handle;
        match handle.usual() {
            Usual::Unrecorded(access) => {
                self.send_to(handle.lock_with(access, called_at), value, None)
            }
            Usual::Recorded(access) if !handle.channel.has_text_of() => {
                self.send_to(handle.lock_with(access, called_at), value, None)
            }
            _ => self.send_with_text(value, called_at),
        }
    }

    /// Sends a value with its text, if it has one, once its turn in a replay has come. It is apart,
    /// so that what is sent without carries nothing of it.
    #[cold]
    #[inline(never)]
    fn send_with_text(&self, value: T, called_at: CallSite) -> Result<usize, SendError<T>> {
        let text = self.handle.channel.text(&value);
        self.send_to(self.handle.lock(Operation::Send, called_at), value, text)
    }

    /// Sends a value, given its text if it has one.
    #[inline(always)]
    fn send_to(
        &self,
        mut channel: LockedChannel<'_>,
        value: T,
        text: Option<String>,
    ) -> Result<usize, SendError<T>> {
        let (number, reply) = channel.send(text, CoreChannel::broadcast_send);
        let receivers = match reply {
            Reply::Sent(receivers) => receivers,
            Reply::NoReceivers(_) => return Err(SendError(value)),
            reply => reply.unexpected(),
        };
        if Values::<T>::ARE_LARGE {
            self.store_large(channel, (number, receivers), value, reply);
        } else {
            self.store(channel, (number, receivers), value, reply);
        }
        Ok(receivers as usize)
    }

    /// Stores a value that was sent by this number to this many receivers, with this reply. As in
    /// tokio, the one that it overwrites is dropped before those who wait are woken.
    #[cfg_attr(debug_assertions, inline(never))]
    #[cfg_attr(not(debug_assertions), inline(always))]
    fn store(
        &self,
        mut channel: LockedChannel<'_>,
        (number, receivers): (u64, u64),
        value: T,
        reply: Reply,
    ) {
        let values = self.handle.channel.values.borrow_mut(&mut channel.state);
        let overwritten = values.push(number, value, receivers);
        // Each is dropped as what it is. An enum would be stored in memory for it.
        match overwritten {
            None => channel.unlock_and_wake(reply),
            Some(Value::Own(value)) => channel.unlock_drop_and_wake(value, reply),
            Some(Value::Shared(value)) => channel.unlock_drop_and_wake(value, reply),
        }
    }

    /// As [`store`](Sender::store), of a large value.
    #[inline(never)]
    fn store_large(
        &self,
        mut channel: LockedChannel<'_>,
        (number, receivers): (u64, u64),
        value: T,
        reply: Reply,
    ) {
        let values = self.handle.channel.values.borrow_mut(&mut channel.state);
        let overwritten = values.push_large(number, value, receivers);
        channel.unlock_drop_and_wake(overwritten, reply);
    }

    /// Creates a receiver, which receives the values that are sent after this call.
    ///
    /// As in tokio, it receives none of the values that were sent before. Other receivers are not
    /// affected.
    ///
    /// # Examples
    ///
    /// ```
    /// use yovanelum::broadcast::{self, error::TryRecvError};
    ///
    /// let (prices, mut chart) = broadcast::channel(4);
    /// prices.send(101).unwrap();
    /// let mut late = prices.subscribe();
    /// prices.send(102).unwrap();
    /// assert_eq!(late.try_recv(), Ok(102));
    /// assert_eq!(late.try_recv(), Err(TryRecvError::Empty));
    /// assert_eq!(chart.try_recv(), Ok(101));
    /// ```
    #[track_caller]
    pub fn subscribe(&self) -> Receiver<T> {
        Receiver {
            handle: self.handle.create(
                Kind::Receiver,
                Operation::Subscribe,
                CoreChannel::broadcast_subscribe,
            ),
        }
    }

    /// Creates a weak sender, which does not keep the channel open.
    ///
    /// As in tokio, the channel is closed when the last `Sender` is dropped, even if weak senders
    /// are left. This sender can still be used.
    ///
    /// # Examples
    ///
    /// ```
    /// use yovanelum::broadcast;
    ///
    /// let (bus, mut audit) = broadcast::channel(4);
    /// let plugin = bus.downgrade();
    /// plugin.upgrade().unwrap().send("plugin loaded").unwrap();
    /// drop(bus);
    /// assert!(plugin.upgrade().is_none());
    /// assert_eq!(audit.try_recv(), Ok("plugin loaded"));
    /// assert!(audit.is_closed());
    /// ```
    #[must_use = "a weak sender that isn't used does nothing"]
    #[track_caller]
    pub fn downgrade(&self) -> WeakSender<T> {
        only_if_tokio_has!("broadcast::Sender::downgrade");
        WeakSender {
            handle: self.handle.create(
                Kind::WeakSender,
                Operation::Downgrade,
                CoreChannel::broadcast_downgrade,
            ),
        }
    }

    /// Returns the number of queued values.
    ///
    /// As in tokio, a value is queued until every receiver that was alive at its send has received
    /// it or was dropped, or until it is overwritten. Unlike [`Receiver::len`], the number does not
    /// include overwritten values.
    ///
    /// # Examples
    ///
    /// ```
    /// use yovanelum::broadcast;
    ///
    /// let (prices, mut chart) = broadcast::channel(2);
    /// for price in [101, 102, 103] {
    ///     prices.send(price).unwrap();
    /// }
    /// assert_eq!(prices.len(), 2);
    /// assert_eq!(chart.len(), 3);
    /// drop(chart);
    /// assert_eq!(prices.len(), 0);
    /// ```
    #[track_caller]
    pub fn len(&self) -> usize {
        only_if_tokio_has!("broadcast::Sender::len");
        self.handle.ask_count(
            Operation::SenderLen,
            CoreChannel::broadcast_sender_len,
            |core, _| core.queued(),
        )
    }

    /// Returns `true` if no value is queued, as in tokio: if [`len`](Sender::len) is 0.
    ///
    /// # Examples
    ///
    /// ```
    /// use yovanelum::broadcast;
    ///
    /// let (prices, mut chart) = broadcast::channel(2);
    /// assert!(prices.is_empty());
    /// prices.send(101).unwrap();
    /// assert!(!prices.is_empty());
    /// chart.try_recv().unwrap();
    /// assert!(prices.is_empty());
    /// ```
    #[track_caller]
    pub fn is_empty(&self) -> bool {
        only_if_tokio_has!("broadcast::Sender::is_empty");
        self.len() == 0
    }

    /// Returns the number of receivers that are alive.
    ///
    /// As in tokio, these are the receivers that a value is sent to, and not all of them need to
    /// get it: a receiver may be dropped or lag before.
    ///
    /// # Examples
    ///
    /// ```
    /// use yovanelum::broadcast;
    ///
    /// let (bus, mailer) = broadcast::channel::<&str>(4);
    /// let audit = bus.subscribe();
    /// assert_eq!(bus.receiver_count(), 2);
    /// drop((mailer, audit));
    /// assert_eq!(bus.receiver_count(), 0);
    /// ```
    #[track_caller]
    pub fn receiver_count(&self) -> usize {
        self.handle.ask_alive(
            Kind::Receiver,
            Operation::ReceiverCount,
            CoreChannel::broadcast_receiver_count,
        )
    }

    /// Returns `true` if both senders belong to the same channel, as in tokio. It is not recorded.
    ///
    /// # Examples
    ///
    /// ```
    /// use yovanelum::broadcast;
    ///
    /// let orders = broadcast::Sender::<u32>::new(4);
    /// let refunds = broadcast::Sender::<u32>::new(4);
    /// assert!(orders.same_channel(&orders.clone()));
    /// assert!(!orders.same_channel(&refunds));
    /// ```
    pub fn same_channel(&self, other: &Self) -> bool {
        only_if_tokio_has!("broadcast::Sender::same_channel");
        self.handle.same_channel(&other.handle)
    }

    /// Waits until the channel has no receiver.
    ///
    /// As in tokio, the future completes when the number of receivers reaches zero;
    /// [`subscribe`](Sender::subscribe) may create a receiver again. If there is none at the call,
    /// it completes at once. If the future is dropped before it completes, nothing has changed. It
    /// is recorded when it completes, as a [`receiver_count`](Sender::receiver_count) of 0.
    ///
    /// # Examples
    ///
    /// ```
    /// use std::thread;
    /// use yovanelum::{block_on, broadcast};
    ///
    /// let (prices, chart) = broadcast::channel::<u32>(4);
    /// let window = thread::spawn(move || drop(chart));
    /// block_on(prices.closed());
    /// assert_eq!(prices.receiver_count(), 0);
    /// window.join().unwrap();
    /// ```
    #[track_caller]
    pub fn closed(&self) -> impl Future<Output = ()> {
        only_if_tokio_has!("broadcast::Sender::closed");
        let method = Method::called("closed");
        self.handle.wait(
            WaitFor::NoReceiver,
            Operation::NoReceiver,
            method,
            |channel| {
                if channel.core().receivers() > 0 {
                    return Poll::Pending;
                }
                channel.call_that_waits(CoreChannel::broadcast_receiver_count);
                Poll::Ready(())
            },
        )
    }

    /// Returns the number of senders that are alive, as in tokio. Weak senders are not counted. It
    /// is not recorded.
    ///
    /// # Examples
    ///
    /// ```
    /// use yovanelum::broadcast;
    ///
    /// let bus = broadcast::Sender::<u32>::new(4);
    /// let other = bus.clone();
    /// let _weak = bus.downgrade();
    /// assert_eq!(bus.strong_count(), 2);
    /// drop(other);
    /// assert_eq!(bus.strong_count(), 1);
    /// ```
    pub fn strong_count(&self) -> usize {
        only_if_tokio_has!("broadcast::Sender::strong_count");
        self.handle.alive(Kind::Sender)
    }

    /// Returns the number of weak senders that are alive, as in tokio. It is not recorded.
    ///
    /// # Examples
    ///
    /// ```
    /// use yovanelum::broadcast;
    ///
    /// let bus = broadcast::Sender::<u32>::new(4);
    /// assert_eq!(bus.weak_count(), 0);
    /// let plugins = [bus.downgrade(), bus.downgrade()];
    /// assert_eq!(bus.weak_count(), 2);
    /// drop(plugins);
    /// assert_eq!(bus.weak_count(), 0);
    /// ```
    pub fn weak_count(&self) -> usize {
        only_if_tokio_has!("broadcast::Sender::weak_count");
        self.handle.alive(Kind::WeakSender)
    }
}

impl<T> Clone for Sender<T> {
    /// Creates another sender of the same channel.
    #[track_caller]
    fn clone(&self) -> Sender<T> {
        Sender {
            handle: self.handle.create(
                Kind::Sender,
                Operation::CloneSender,
                CoreChannel::broadcast_clone_sender,
            ),
        }
    }
}

impl<T> Drop for Sender<T> {
    fn drop(&mut self) {
        self.handle.drop_by((
            CoreChannel::broadcast_drop,
            CoreChannel::broadcast_drop_step,
        ));
    }
}

impl<T> fmt::Debug for Sender<T> {
    fn fmt(&self, f: &mut fmt::Formatter<'_>) -> fmt::Result {
        write!(f, "broadcast::Sender")
    }
}

impl<T> Handle for Sender<T> {
    type Value = T;

    fn recorded(&self) -> RecordedHandle<'_> {
        self.handle.of_recorder()
    }

    fn set_text_of(&self, text_of: TextOf<T>) {
        self.handle.channel.set_text_of(text_of);
    }
}
