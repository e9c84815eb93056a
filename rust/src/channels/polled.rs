//! Receivers that are polled without a future of their own. The streams of the package
//! `yovanelum-stream` are made of them.

use crate::channels::broadcast;
use crate::channels::channel::{CallSite, call_site};
use crate::channels::recorder::Handle;
use crate::channels::wait::{Pending, WaitFor};
use crate::channels::watch;
use std::fmt;
use std::task::{Context, Poll};

/// A receiver with the state of its call between polls, for a stream or a future of your own.
///
/// A future of [`recv`](broadcast::Receiver::recv) borrows its receiver, so no type can have both.
/// This one is polled itself. A poll is called by a runtime, so its calls are recorded as made
/// where this was created. If it is dropped, a call that waits no longer does.
///
/// # Examples
///
/// A stream of the values of a broadcast, which ends once it is closed:
///
/// ```
/// use std::task::{Context, Poll};
/// use yovanelum::broadcast::{self, error::RecvError};
/// use yovanelum::{Polled, block_on};
///
/// struct Orders(Polled<broadcast::Receiver<u32>>);
///
/// impl Orders {
///     fn poll_next(&mut self, context: &mut Context<'_>) -> Poll<Option<u32>> {
///         loop {
///             match self.0.poll_recv(context) {
///                 Poll::Pending => return Poll::Pending,
///                 Poll::Ready(Ok(order)) => return Poll::Ready(Some(order)),
///                 Poll::Ready(Err(RecvError::Lagged(_))) => {}
///                 Poll::Ready(Err(RecvError::Closed)) => return Poll::Ready(None),
///             }
///         }
///     }
/// }
///
/// let (tx, rx) = broadcast::channel(2);
/// let mut orders = Orders(Polled::new(rx));
/// for id in [71, 72, 73] {
///     tx.send(id).unwrap();
/// }
/// drop(tx);
/// let mut next = || block_on(std::future::poll_fn(|context| orders.poll_next(context)));
/// assert_eq!([next(), next(), next()], [Some(72), Some(73), None]);
/// ```
pub struct Polled<R: Handle> {
    receiver: R,
    made_at: CallSite,
    pending: Pending,
}

impl<R: Handle> Polled<R> {
    /// Wraps a receiver. Its calls are recorded as made where this is called.
    #[track_caller]
    pub fn new(receiver: R) -> Polled<R> {
        Polled {
            receiver,
            made_at: call_site(),
            pending: Pending::default(),
        }
    }
}

impl<T: Clone> Polled<broadcast::Receiver<T>> {
    /// Polls a [`recv`](broadcast::Receiver::recv). A poll after one that is ready begins another.
    ///
    /// # Errors
    ///
    /// Returns those of `recv`: `Lagged` with how many values were overwritten, or `Closed`.
    pub fn poll_recv(
        &mut self,
        context: &Context<'_>,
    ) -> Poll<Result<T, broadcast::error::RecvError>> {
        self.receiver
            .poll_recv(self.made_at, context, &mut self.pending)
    }
}

impl<T> Polled<watch::Receiver<T>> {
    /// Polls a [`changed`](watch::Receiver::changed). A poll after one that is ready begins
    /// another.
    ///
    /// # Errors
    ///
    /// Returns that of `changed`: all senders were dropped, and the last value was seen.
    ///
    /// # Examples
    ///
    /// ```
    /// use std::future::poll_fn;
    /// use yovanelum::{Polled, block_on, watch};
    ///
    /// let (tx, rx) = watch::channel("starting");
    /// let mut state = Polled::new(rx);
    /// tx.send("ready").unwrap();
    /// block_on(poll_fn(|context| state.poll_changed(context))).unwrap();
    /// assert_eq!(*state.borrow_and_update(), "ready");
    /// ```
    pub fn poll_changed(
        &mut self,
        context: &Context<'_>,
    ) -> Poll<Result<(), watch::error::RecvError>> {
        self.receiver
            .poll_changed(self.made_at, context, &mut self.pending)
    }

    /// Calls [`borrow_and_update`](watch::Receiver::borrow_and_update), where the receiver was
    /// wrapped.
    pub fn borrow_and_update(&mut self) -> watch::Ref<'_, T> {
        self.receiver.borrow_and_update_at(self.made_at)
    }
}

impl<R: Handle> fmt::Debug for Polled<R> {
    fn fmt(&self, f: &mut fmt::Formatter<'_>) -> fmt::Result {
        f.debug_struct("Polled").finish_non_exhaustive()
    }
}

impl<R: Handle> Drop for Polled<R> {
    fn drop(&mut self) {
        let channel = self.receiver.recorded().channel;
        self.pending.end(channel, WaitFor::Value);
    }
}
