//! The receiving half of a broadcast channel.

use super::BroadcastHandle;
use super::error::{RecvError, TryRecvError};
use super::values::{Value, Values};
use crate::channels::block_on::{block_on, check_blocking};
use crate::channels::channel::{CallSite, CoreChannel, LockedChannel, call_site};
use crate::channels::events::Event;
use crate::channels::handle::{Kind, Usual};
use crate::channels::of_version::only_if_tokio_has;
use crate::channels::recorder::{Handle, RecordedHandle, TextOf};
use crate::channels::reentrant::Reentrant;
use crate::channels::results::ReplyResult;
use crate::channels::wait::{Method, Pending, WaitFor};
use crate::channels::wakers::WakeAtEnd;
use std::fmt;
use std::future::{Future, poll_fn};
use std::sync::Arc;
use std::task::{Context, Poll};
use yovanelum_record::operation::Operation;
use yovanelum_record::reply::Reply;

/// The receiving half of a broadcast channel.
///
/// It gets a clone of each value that is sent while it is alive, in the order of the sends, unless
/// it lags. As in tokio, it is not `Clone`: [`Sender::subscribe`](super::Sender::subscribe) and
/// [`resubscribe`](Receiver::resubscribe) create receivers. When it is dropped, the values that it
/// alone had yet to receive are dropped too, and then the futures that wait in
/// [`closed`](super::Sender::closed) are woken. If the drop of a value panics, the others are
/// dropped all the same, where tokio keeps them until they are overwritten.
///
/// # Examples
///
/// A listener that receives until the channel is closed:
///
/// ```
/// use std::thread;
/// use yovanelum::{block_on, broadcast};
///
/// let (bus, mut listener) = broadcast::channel(16);
/// let logger = thread::spawn(move || {
///     let mut log = vec![];
///     while let Ok(event) = block_on(listener.recv()) {
///         log.push(event);
///     }
///     log
/// });
/// bus.send("user created").unwrap();
/// bus.send("user deleted").unwrap();
/// drop(bus);
/// assert_eq!(logger.join().unwrap(), ["user created", "user deleted"]);
/// ```
pub struct Receiver<T> {
    pub(super) handle: BroadcastHandle<T>,
}

impl<T> Receiver<T> {
    /// Returns the number of values that were sent to this receiver and that it has yet to receive.
    ///
    /// As in tokio, overwritten values are counted until a receive returns `Lagged`. If the number
    /// is greater than the capacity, rounded up to a power of two, the next receive returns
    /// `Lagged`.
    ///
    /// # Examples
    ///
    /// ```
    /// use yovanelum::broadcast::{self, error::TryRecvError};
    ///
    /// let (prices, mut chart) = broadcast::channel(2);
    /// for price in [101, 102, 103] {
    ///     prices.send(price).unwrap();
    /// }
    /// assert_eq!(chart.len(), 3);
    /// assert_eq!(chart.try_recv(), Err(TryRecvError::Lagged(1)));
    /// assert_eq!(chart.len(), 2);
    /// ```
    #[track_caller]
    pub fn len(&self) -> usize {
        self.handle.ask_count(
            Operation::ReceiverLen,
            CoreChannel::broadcast_receiver_len,
            |core, rx| core.unread(rx),
        )
    }

    /// Returns `true` if this receiver has received everything that was sent to it, as in tokio: if
    /// [`len`](Receiver::len) is 0.
    ///
    /// # Examples
    ///
    /// ```
    /// use yovanelum::broadcast;
    ///
    /// let (bus, mut mailer) = broadcast::channel(4);
    /// let audit = bus.subscribe();
    /// bus.send("user created").unwrap();
    /// mailer.try_recv().unwrap();
    /// assert!(mailer.is_empty());
    /// assert!(!audit.is_empty());
    /// ```
    #[track_caller]
    pub fn is_empty(&self) -> bool {
        self.len() == 0
    }

    /// Returns `true` if both receivers belong to the same channel, as in tokio. It is not
    /// recorded.
    ///
    /// # Examples
    ///
    /// ```
    /// use yovanelum::broadcast;
    ///
    /// let (orders, mailer) = broadcast::channel::<u32>(4);
    /// let (_refunds, other) = broadcast::channel::<u32>(4);
    /// assert!(mailer.same_channel(&orders.subscribe()));
    /// assert!(!mailer.same_channel(&other));
    /// ```
    pub fn same_channel(&self, other: &Self) -> bool {
        only_if_tokio_has!("broadcast::Receiver::same_channel");
        self.handle.same_channel(&other.handle)
    }

    /// Returns the number of senders that are alive, as in tokio. Weak senders are not counted. It
    /// is not recorded.
    ///
    /// # Examples
    ///
    /// ```
    /// use yovanelum::broadcast;
    ///
    /// let (bus, listener) = broadcast::channel::<u32>(4);
    /// let other = bus.clone();
    /// assert_eq!(listener.sender_strong_count(), 2);
    /// drop((bus, other));
    /// assert_eq!(listener.sender_strong_count(), 0);
    /// ```
    pub fn sender_strong_count(&self) -> usize {
        only_if_tokio_has!("broadcast::Receiver::sender_strong_count");
        self.handle.alive(Kind::Sender)
    }

    /// Returns the number of weak senders that are alive, as in tokio. It is not recorded.
    ///
    /// # Examples
    ///
    /// ```
    /// use yovanelum::broadcast;
    ///
    /// let (bus, listener) = broadcast::channel::<u32>(4);
    /// let plugin = bus.downgrade();
    /// assert_eq!(listener.sender_weak_count(), 1);
    /// drop(plugin);
    /// assert_eq!(listener.sender_weak_count(), 0);
    /// ```
    pub fn sender_weak_count(&self) -> usize {
        only_if_tokio_has!("broadcast::Receiver::sender_weak_count");
        self.handle.alive(Kind::WeakSender)
    }

    /// Returns `true` if the channel is closed.
    ///
    /// As in tokio, the channel is closed when every sender has been dropped. There may still be
    /// values to receive. It is not recorded.
    ///
    /// # Examples
    ///
    /// ```
    /// use yovanelum::broadcast;
    ///
    /// let (bus, mut listener) = broadcast::channel(4);
    /// bus.send("shutting down").unwrap();
    /// assert!(!listener.is_closed());
    /// drop(bus);
    /// assert!(listener.is_closed());
    /// assert_eq!(listener.try_recv(), Ok("shutting down"));
    /// ```
    pub fn is_closed(&self) -> bool {
        only_if_tokio_has!("broadcast::Receiver::is_closed");
        self.sender_strong_count() == 0
    }

    /// Attempts to receive. A value is stored in `value`, so that what is returned is small.
    fn attempt_recv(
        &self,
        channel: &mut LockedChannel<'_>,
        value: &mut Option<Value<T>>,
    ) -> Poll<Received> {
        let reply = channel.call(CoreChannel::broadcast_recv);
        reply.received().map(|received| match received {
            Ok(number) => {
                channel.note_receive(self.handle.slot);
                self.store_received(channel, number, value);
                Ok(())
            }
            Err(RecvError::Lagged(lost)) => {
                let event = channel.note_lag(self.handle.slot, lost);
                Err((RecvError::Lagged(lost), event))
            }
            Err(error) => Err((error, Event::default())),
        })
    }

    #[cfg_attr(debug_assertions, inline(never))]
    #[cfg_attr(not(debug_assertions), inline(always))]
    fn store_received(
        &self,
        channel: &mut LockedChannel<'_>,
        number: u64,
        value: &mut Option<Value<T>>,
    ) {
        let values = self.handle.channel.values.borrow_mut(&mut channel.state);
        *value = Some(if Values::<T>::ARE_LARGE {
            Value::Shared(values.receive_large(number))
        } else {
            values.receive(number)
        });
    }

    /// Returns a clone of the value that was sent with this number, and is received now, once the
    /// channel is unlocked.
    #[cfg_attr(debug_assertions, inline(never))]
    #[cfg_attr(not(debug_assertions), inline(always))]
    fn clone_received(&self, mut channel: LockedChannel<'_>, number: u64) -> T
    where
        T: Clone,
    {
        let (state, has_wait) = channel.note_receive(self.handle.slot);
        let values = self.handle.channel.values.borrow_mut(state);
        // Each is unlocked and cloned as what it is. An enum would be stored in memory for it.
        match values.receive(number) {
            Value::Own(value) => {
                channel.unlock_after(has_wait, self.handle.slot);
                value.clone()
            }
            Value::Shared(value) => {
                channel.unlock_after(has_wait, self.handle.slot);
                clone_shared(value)
            }
        }
    }

    /// As [`clone_received`](Receiver::clone_received), of a large value.
    #[inline(never)]
    fn clone_large(&self, mut channel: LockedChannel<'_>, number: u64) -> T
    where
        T: Clone,
    {
        let (state, has_wait) = channel.note_receive(self.handle.slot);
        let values = self.handle.channel.values.borrow_mut(state);
        let value = values.receive_large(number);
        channel.unlock_after(has_wait, self.handle.slot);
        value.with(T::clone)
    }
}

impl<T: Clone> Receiver<T> {
    /// Creates a receiver of the same channel, which receives the values that are sent after this
    /// call.
    ///
    /// As in tokio, it receives none of the values that this receiver has yet to receive. This
    /// receiver is unchanged.
    ///
    /// # Examples
    ///
    /// ```
    /// use yovanelum::broadcast::{self, error::TryRecvError};
    ///
    /// let (prices, mut chart) = broadcast::channel(4);
    /// prices.send(101).unwrap();
    /// let mut late = chart.resubscribe();
    /// prices.send(102).unwrap();
    /// assert_eq!(late.try_recv(), Ok(102));
    /// assert_eq!(late.try_recv(), Err(TryRecvError::Empty));
    /// assert_eq!(chart.try_recv(), Ok(101));
    /// ```
    #[track_caller]
    pub fn resubscribe(&self) -> Receiver<T> {
        Receiver {
            handle: self.handle.create(
                Kind::Receiver,
                Operation::Resubscribe,
                CoreChannel::broadcast_resubscribe,
            ),
        }
    }

    /// Receives the next value, and waits for one if there is none.
    ///
    /// Returns a clone of the value. As in tokio, a receiver that lags is moved to the oldest value
    /// that is still retained, and the next receive returns that value, unless it has been
    /// overwritten too.
    ///
    /// # Cancel safety
    ///
    /// As in tokio, nothing has been received if the future is dropped before it completes, for
    /// example by `select!`. A receive that is dropped is not recorded.
    ///
    /// # Errors
    ///
    /// - [`RecvError::Lagged`] if values were overwritten before this receiver received them.
    /// - [`RecvError::Closed`] if every sender has been dropped and everything that was sent has
    ///   been received.
    ///
    /// # Examples
    ///
    /// ```
    /// use std::thread;
    /// use yovanelum::broadcast::{self, error::RecvError};
    /// use yovanelum::block_on;
    ///
    /// let (prices, mut chart) = broadcast::channel(2);
    /// let exchange = thread::spawn(move || prices.send(101).unwrap());
    /// block_on(async {
    ///     assert_eq!(chart.recv().await, Ok(101));
    ///     assert_eq!(chart.recv().await, Err(RecvError::Closed));
    /// });
    /// exchange.join().unwrap();
    /// ```
    ///
    /// A receiver that lags:
    ///
    /// ```
    /// use yovanelum::broadcast::{self, error::RecvError};
    /// use yovanelum::block_on;
    ///
    /// let (prices, mut chart) = broadcast::channel(2);
    /// for price in [101, 102, 103] {
    ///     prices.send(price).unwrap();
    /// }
    /// block_on(async {
    ///     assert_eq!(chart.recv().await, Err(RecvError::Lagged(1)));
    ///     assert_eq!(chart.recv().await, Ok(102));
    /// });
    /// ```
    #[track_caller]
    pub fn recv(&mut self) -> impl Future<Output = Result<T, RecvError>> {
        self.recv_by(Method::called("recv"))
    }

    /// Receives the next value for this method.
    async fn recv_by(&mut self, method: Method) -> Result<T, RecvError> {
        let (word, pending) = (Operation::Recv, Pending::default());
        let mut waiting = self.handle.waiting(WaitFor::Value, word, method, pending);
        // The value is no part of the future, which so is `Sync` also where the value isn't.
        poll_fn(|context| {
            let mut value = None;
            let received = waiting.poll(context, |channel| self.attempt_recv(channel, &mut value));
            received.map(|received| received_by(received, &value))
        })
        .await
    }

    /// [`recv`](Receiver::recv) without a future. Between polls the caller holds the state of the
    /// call.
    pub(crate) fn poll_recv(
        &mut self,
        called_at: CallSite,
        context: &Context<'_>,
        pending: &mut Pending,
    ) -> Poll<Result<T, RecvError>> {
        let method = Method {
            name: "recv",
            called_at,
        };
        let mut value = None;
        let received = self.handle.poll_wait(
            WaitFor::Value,
            Operation::Recv,
            method,
            pending,
            context,
            |channel| self.attempt_recv(channel, &mut value),
        );
        received.map(|received| received_by(received, &value))
    }

    /// Receives the next value if there is one, without waiting.
    ///
    /// Returns a clone of the value. As in tokio, a receiver that lags is moved to the oldest value
    /// that is still retained.
    ///
    /// # Errors
    ///
    /// - [`TryRecvError::Empty`] if there is no value now. Nothing has changed.
    /// - [`TryRecvError::Lagged`] if values were overwritten before this receiver received them.
    /// - [`TryRecvError::Closed`] if every sender has been dropped and everything that was sent has
    ///   been received.
    ///
    /// # Examples
    ///
    /// ```
    /// use yovanelum::broadcast::{self, error::TryRecvError};
    ///
    /// let (bus, mut listener) = broadcast::channel(4);
    /// assert_eq!(listener.try_recv(), Err(TryRecvError::Empty));
    /// bus.send("user created").unwrap();
    /// drop(bus);
    /// assert_eq!(listener.try_recv(), Ok("user created"));
    /// assert_eq!(listener.try_recv(), Err(TryRecvError::Closed));
    /// ```
    #[track_caller]
    pub fn try_recv(&mut self) -> Result<T, TryRecvError> {
        let called_at = call_site();
        if cfg!(debug_assertions) {
            return self.try_recv_any(called_at);
        }
        match self.handle.usual() {
            Usual::Unrecorded(access) => {
                self.try_recv_from(self.handle.lock_with(access, called_at))
            }
            Usual::Recorded(access) => self.try_recv_from(self.handle.lock_with(access, called_at)),
            Usual::Neither => self.try_recv_any(called_at),
        }
    }

    /// Receives a value, whatever the channel has.
    #[cfg_attr(debug_assertions, inline(always))]
    #[cfg_attr(not(debug_assertions), inline(never))]
    fn try_recv_any(&self, called_at: CallSite) -> Result<T, TryRecvError> {
        self.try_recv_from(self.handle.lock(Operation::TryRecv, called_at))
    }

    #[inline(always)]
    fn try_recv_from(&self, mut channel: LockedChannel<'_>) -> Result<T, TryRecvError> {
        let reply = channel.call(CoreChannel::broadcast_try_recv);
        let Reply::Value(number) = reply else {
            if let Reply::Lagged(lost) = reply {
                let event = channel.note_lag(self.handle.slot, lost);
                channel.unlock();
                drop(event);
            }
            return Err(reply.not_received());
        };
        Ok(if Values::<T>::ARE_LARGE {
            self.clone_large(channel, number)
        } else {
            self.clone_received(channel, number)
        })
    }

    /// Receives the next value, and blocks the current thread until there is one.
    ///
    /// As in tokio, it is [`recv`](Receiver::recv) for code that is not asynchronous.
    ///
    /// # Errors
    ///
    /// As [`recv`](Receiver::recv).
    ///
    /// # Panics
    ///
    /// Panics on a thread that runs tasks of tokio, as in tokio, where the channels are in tokio's
    /// place. Elsewhere no runtime is known, and it blocks the thread.
    ///
    /// # Examples
    ///
    /// ```
    /// use std::thread;
    /// use yovanelum::broadcast;
    ///
    /// let (prices, mut chart) = broadcast::channel(4);
    /// let screen = thread::spawn(move || chart.blocking_recv());
    /// prices.send(101).unwrap();
    /// assert_eq!(screen.join().unwrap(), Ok(101));
    /// ```
    #[track_caller]
    pub fn blocking_recv(&mut self) -> Result<T, RecvError> {
        only_if_tokio_has!("broadcast::Receiver::blocking_recv");
        check_blocking();
        block_on(self.recv_by(Method::called("blocking_recv")))
    }
}

/// Returns a clone of a value that several receivers share.
#[inline(never)]
fn clone_shared<T: Clone>(value: Arc<Reentrant<T>>) -> T {
    value.with(T::clone)
}

/// What a receive returns while the channel is locked, beside the value. The event is dropped once
/// it no longer is.
type Received = Result<(), (RecvError, Event)>;

/// Returns what a receive returns to its caller, and tells of the event, if there is one.
fn received_by<T: Clone>(received: Received, value: &Option<Value<T>>) -> Result<T, RecvError> {
    match received {
        Ok(()) => Ok(value.as_ref().expect("a value was received").cloned()),
        Err((error, event)) => {
            drop(event);
            Err(error)
        }
    }
}

impl<T> Drop for Receiver<T> {
    fn drop(&mut self) {
        let mut channel = self.handle.lock(Operation::Drop, None);
        let values = &self.handle.channel.values;
        let unread = if values.borrow_mut(&mut channel.state).has_unread() {
            channel.core().unread(self.handle.number)
        } else {
            0
        };
        let slot = self.handle.slot;
        let (mut wakers, _) = channel.drop_handle(
            Kind::Receiver,
            slot,
            (
                CoreChannel::broadcast_drop,
                CoreChannel::broadcast_drop_step,
            ),
        );
        let unwanted = values.borrow_mut(&mut channel.state).drop_receiver(unread);
        drop(channel);
        let Some(unwanted) = unwanted else {
            return wakers.wake();
        };
        // Whoever waits for this finds the values dropped, and is woken also if such a drop panics.
        let _wakers = WakeAtEnd(wakers);
        drop(unwanted);
    }
}

impl<T> fmt::Debug for Receiver<T> {
    fn fmt(&self, f: &mut fmt::Formatter<'_>) -> fmt::Result {
        write!(f, "broadcast::Receiver")
    }
}

impl<T> Handle for Receiver<T> {
    type Value = T;

    fn recorded(&self) -> RecordedHandle<'_> {
        self.handle.of_recorder()
    }

    fn set_text_of(&self, text_of: TextOf<T>) {
        self.handle.channel.set_text_of(text_of);
    }
}
