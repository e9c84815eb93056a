//! The receiving half of a watch channel.

use super::error::RecvError;
use super::version::SeenVersion;
use super::{Ref, WatchHandle};
use crate::channels::channel::{Access, CallSite, CoreChannel, LockedChannel, call_site};
use crate::channels::handle::{Kind, Usual};
use crate::channels::of_version::only_if_tokio_has;
use crate::channels::recorder::{Handle, RecordedHandle, TextOf};
use crate::channels::results::ReplyResult;
use crate::channels::wait::{Method, Pending, WaitFor};
use std::fmt;
use std::future::Future;
use std::task::{Context, Poll};
use yovanelum_record::operation::Operation;

/// The receiving half of a watch channel.
///
/// It looks at the last value, and waits for values that it has not seen.
/// [`channel`](super::channel), [`Sender::subscribe`](super::Sender::subscribe) and `clone` create
/// receivers. As in tokio, a clone has seen what the original has, and from then on each of the two
/// sees values for itself.
///
/// # Examples
///
/// ```
/// use yovanelum::{block_on, watch};
///
/// let (config, mut rx) = watch::channel("log = info");
/// config.send("log = debug").unwrap();
/// // Both have yet to see the value.
/// let mut other = rx.clone();
/// block_on(async {
///     rx.changed().await.unwrap();
///     assert_eq!(*rx.borrow(), "log = debug");
/// });
/// assert!(!rx.has_changed().unwrap());
/// assert!(other.borrow_and_update().has_changed());
/// ```
pub struct Receiver<T> {
    pub(super) handle: WatchHandle<T>,
    // As the core knows it too, for looks that take no lock.
    pub(super) seen: SeenVersion,
}

impl<T> Receiver<T> {
    /// Returns a reference to the last value, without marking the value as seen.
    ///
    /// As in tokio, the reference holds a read lock: senders block until it is dropped, so keep it
    /// for a short time. In a loop with [`changed`](Receiver::changed) use
    /// [`borrow_and_update`](Receiver::borrow_and_update): with `borrow`, a value that was sent
    /// between the two is looked at twice.
    ///
    /// # Examples
    ///
    /// ```
    /// use yovanelum::watch;
    ///
    /// let (config, rx) = watch::channel("log = info");
    /// config.send("log = debug").unwrap();
    /// assert_eq!(*rx.borrow(), "log = debug");
    /// assert!(rx.has_changed().unwrap());
    /// ```
    #[track_caller]
    pub fn borrow(&self) -> Ref<'_, T> {
        self.handle.borrow(Some(&self.seen))
    }

    /// Returns a reference to the last value, and marks the value as seen.
    ///
    /// As in tokio, [`changed`](Receiver::changed) then waits for the next value. The reference
    /// holds a read lock: senders block until it is dropped, so keep it for a short time.
    ///
    /// # Examples
    ///
    /// ```
    /// use yovanelum::watch;
    ///
    /// let (config, mut rx) = watch::channel("log = info");
    /// config.send("log = debug").unwrap();
    /// assert_eq!(*rx.borrow_and_update(), "log = debug");
    /// assert!(!rx.has_changed().unwrap());
    /// ```
    #[track_caller]
    pub fn borrow_and_update(&mut self) -> Ref<'_, T> {
        self.borrow_and_update_at(call_site())
    }

    /// [`borrow_and_update`](Receiver::borrow_and_update), which is called here in the source.
    pub(crate) fn borrow_and_update_at(&mut self, called_at: CallSite) -> Ref<'_, T> {
        if cfg!(debug_assertions) {
            return self.update_any(called_at);
        }
        match self.handle.usual() {
            Usual::Unrecorded(access) => self.update_by(access, called_at),
            Usual::Recorded(access) => self.update_by(access, called_at),
            Usual::Neither => self.update_any(called_at),
        }
    }

    /// Looks at the value and marks it as seen, whatever the channel has.
    #[cfg_attr(debug_assertions, inline(always))]
    #[cfg_attr(not(debug_assertions), inline(never))]
    fn update_any(&self, called_at: CallSite) -> Ref<'_, T> {
        self.update_by(self.handle.pass(Operation::Update, called_at), called_at)
    }

    #[inline(always)]
    fn update_by<'a>(&'a self, access: Access<'a>, called_at: CallSite) -> Ref<'a, T> {
        let method = Method {
            name: "borrow_and_update",
            called_at,
        };
        let inner = self.handle.read_value(&method);
        let mut channel = self.handle.lock_with(access, called_at);
        let has_changed = !channel.has_seen();
        channel.call(CoreChannel::watch_update);
        channel.note_receive(self.handle.slot);
        self.see();
        self.handle.looked(channel, inner, has_changed)
    }

    /// Notes that the receiver has seen the value, while the channel is locked.
    #[inline(always)]
    fn see(&self) {
        self.seen.see(&self.handle.channel.values.version);
    }

    /// Returns `true` if there is a value that this receiver has not seen.
    ///
    /// As in tokio, the value is not marked as seen, and values are not compared: a value that is
    /// equal to the one before counts as a change.
    ///
    /// # Errors
    ///
    /// Returns [`RecvError`] if every sender has been dropped, also if the last value has not been
    /// seen.
    ///
    /// # Examples
    ///
    /// ```
    /// use yovanelum::watch;
    ///
    /// let (config, rx) = watch::channel("log = info");
    /// assert!(!rx.has_changed().unwrap());
    /// config.send("log = info").unwrap();
    /// assert!(rx.has_changed().unwrap());
    /// drop(config);
    /// assert!(rx.has_changed().is_err());
    /// assert_eq!(*rx.borrow(), "log = info");
    /// ```
    #[track_caller]
    #[inline]
    pub fn has_changed(&self) -> Result<bool, RecvError> {
        let recorded = self.handle.recorded();
        if recorded.recorder.0.is_none() {
            let version = &self.handle.channel.values.version;
            return version.changed_since(&self.seen).ok_or(RecvError(()));
        }
        self.has_changed_recorded(call_site())
    }

    /// As [`has_changed`](Receiver::has_changed), where there is a recorder.
    #[inline(never)]
    fn has_changed_recorded(&self, called_at: CallSite) -> Result<bool, RecvError> {
        let recorded = self.handle.recorded();
        let word = Operation::HasChanged;
        let access = if recorded.is_quiet(self.handle.number, word, called_at) {
            self.handle.unordered()
        } else {
            self.handle.pass(word, called_at)
        };
        let mut channel = self.handle.lock_with(access, called_at);
        if !self.handle.recorded().recorder.is_quiet() {
            return channel.call(CoreChannel::watch_has_changed).has_changed();
        }
        match channel.core().senders() {
            0 => Err(RecvError(())),
            _ => Ok(self.handle.has_changed(&mut channel)),
        }
    }

    /// Marks the last value as unseen by this receiver.
    ///
    /// As in tokio, [`changed`](Receiver::changed) then returns at once, whether a value was sent
    /// or not. So a new receiver can handle the value that was there before it in the same loop as
    /// later ones. Other receivers are not affected.
    ///
    /// # Examples
    ///
    /// ```
    /// use yovanelum::{block_on, watch};
    ///
    /// let config = watch::Sender::new("log = info");
    /// let mut rx = config.subscribe();
    /// rx.mark_changed();
    /// assert!(rx.has_changed().unwrap());
    /// block_on(rx.changed()).unwrap();
    /// assert!(!rx.has_changed().unwrap());
    /// ```
    #[track_caller]
    pub fn mark_changed(&mut self) {
        only_if_tokio_has!("watch::Receiver::mark_changed");
        let mut channel = self.handle.lock(Operation::MarkChanged, call_site());
        channel.call(CoreChannel::watch_mark_changed);
        self.seen.unsee(&self.handle.channel.values.version);
        channel.unlock_without_wait(self.handle.slot);
    }

    /// Marks the last value as seen by this receiver.
    ///
    /// As in tokio, this is for a receiver that is not interested in that value. Other receivers
    /// are not affected.
    ///
    /// # Examples
    ///
    /// ```
    /// use yovanelum::watch;
    ///
    /// let (config, mut rx) = watch::channel("log = info");
    /// config.send("log = debug").unwrap();
    /// rx.mark_unchanged();
    /// assert!(!rx.has_changed().unwrap());
    /// config.send("log = warn").unwrap();
    /// assert!(rx.has_changed().unwrap());
    /// ```
    #[track_caller]
    pub fn mark_unchanged(&mut self) {
        only_if_tokio_has!("watch::Receiver::mark_unchanged");
        let mut channel = self.handle.lock(Operation::MarkUnchanged, call_site());
        channel.call(CoreChannel::watch_mark_unchanged);
        self.see();
    }

    /// Waits until there is a value that this receiver has not seen, and marks it as seen.
    ///
    /// As in tokio, it returns at once if the last value is unseen at the call. To look at the
    /// value, call [`borrow_and_update`](Receiver::borrow_and_update).
    ///
    /// # Cancel safety
    ///
    /// As in tokio, no value has been marked as seen if the future is dropped before it completes,
    /// for example by `select!`. It is then not recorded.
    ///
    /// # Errors
    ///
    /// Returns [`RecvError`] if every sender has been dropped and the last value has been seen.
    ///
    /// # Examples
    ///
    /// ```
    /// use std::thread;
    /// use yovanelum::{block_on, watch};
    ///
    /// let (price, mut rx) = watch::channel(101);
    /// let exchange = thread::spawn(move || price.send(102).unwrap());
    /// block_on(async {
    ///     rx.changed().await.unwrap();
    ///     assert_eq!(*rx.borrow_and_update(), 102);
    ///     // The exchange ends, and drops the sender.
    ///     assert!(rx.changed().await.is_err());
    /// });
    /// exchange.join().unwrap();
    /// ```
    #[track_caller]
    pub fn changed(&mut self) -> impl Future<Output = Result<(), RecvError>> {
        self.changed_by(Method::called("changed"))
    }

    /// Waits for this method until there is a value that this receiver has not seen, and marks it
    /// as seen.
    async fn changed_by(&self, method: Method) -> Result<(), RecvError> {
        let attempt = |channel: &mut LockedChannel<'_>| self.attempt_changed(channel);
        self.handle
            .wait(WaitFor::Value, Operation::Changed, method, attempt)
            .await
    }

    fn attempt_changed(&self, channel: &mut LockedChannel<'_>) -> Poll<Result<(), RecvError>> {
        let changed = channel.call(CoreChannel::watch_changed).changed();
        if let Poll::Ready(Ok(())) = changed {
            channel.note_receive(self.handle.slot);
            self.see();
        }
        changed
    }

    /// [`changed`](Receiver::changed) without a future. Between polls the caller holds the state of
    /// the call.
    pub(crate) fn poll_changed(
        &mut self,
        called_at: CallSite,
        context: &Context<'_>,
        pending: &mut Pending,
    ) -> Poll<Result<(), RecvError>> {
        let method = Method {
            name: "changed",
            called_at,
        };
        self.handle.poll_wait(
            WaitFor::Value,
            Operation::Changed,
            method,
            pending,
            context,
            |channel| self.attempt_changed(channel),
        )
    }

    /// Waits until the closure returns `true` for the value, and returns a reference to that value.
    ///
    /// The closure is called with the value at the call, and after that whenever there is a value
    /// that this receiver has not seen. As in tokio, it is called with the value at the call also
    /// if that has been seen, and values that are replaced quickly may be skipped. Each value with
    /// which it was called is marked as seen. The reference holds a read lock: senders block until
    /// it is dropped.
    ///
    /// Each call of the closure is recorded, as a
    /// [`borrow_and_update`](Receiver::borrow_and_update), and so is each wait for a value, as a
    /// [`changed`](Receiver::changed).
    ///
    /// # Cancel safety
    ///
    /// As in tokio, if the future is dropped before it completes, for example by `select!`, the
    /// closure has returned `false` for the last value that was seen.
    ///
    /// # Errors
    ///
    /// Returns [`RecvError`] if every sender has been dropped and the closure has returned `false`
    /// for the last value.
    ///
    /// # Panics
    ///
    /// Panics if the closure panics. As in tokio, the channel can still be used.
    ///
    /// The closure runs while the value is locked. Panics if the closure waits for that lock, by a
    /// send on this channel or, while a sender waits, by a look at its value. Unlike tokio, where
    /// this is a deadlock.
    ///
    /// # Examples
    ///
    /// ```
    /// use std::thread;
    /// use yovanelum::{block_on, watch};
    ///
    /// let (state, mut rx) = watch::channel("loading");
    /// let worker = thread::spawn(move || state.send("ready").unwrap());
    /// assert_eq!(*block_on(rx.wait_for(|state| *state == "ready")).unwrap(), "ready");
    /// worker.join().unwrap();
    /// assert!(block_on(rx.wait_for(|state| *state == "stopped")).is_err());
    /// ```
    #[track_caller]
    pub fn wait_for(
        &mut self,
        mut f: impl FnMut(&T) -> bool,
    ) -> impl Future<Output = Result<Ref<'_, T>, RecvError>> {
        only_if_tokio_has!("watch::Receiver::wait_for");
        let method = Method::called("wait_for");
        async move {
            self.handle.give_way().await;
            loop {
                {
                    let (word, called_at) = (Operation::WaitFor, method.called_at);
                    let access = self.handle.turn(word, called_at).await;
                    let value = self.handle.borrow_by(access, &method, |channel| {
                        let has_changed = !channel.has_seen();
                        channel.call_that_waits(CoreChannel::watch_update);
                        channel.note_receive(self.handle.slot);
                        self.see();
                        has_changed
                    });
                    if self.handle.channel.values.run_reading(|| f(&value)) {
                        return Ok(value);
                    }
                }
                self.changed_by(method).await?;
            }
        }
    }

    /// Returns `true` if both receivers belong to the same channel, as in tokio. It is not
    /// recorded.
    ///
    /// # Examples
    ///
    /// ```
    /// use yovanelum::watch;
    ///
    /// let (_config, rx) = watch::channel("log = info");
    /// let (_state, other) = watch::channel("starting");
    /// assert!(rx.same_channel(&rx.clone()));
    /// assert!(!rx.same_channel(&other));
    /// ```
    pub fn same_channel(&self, other: &Self) -> bool {
        self.handle.same_channel(&other.handle)
    }
}

impl<T> Clone for Receiver<T> {
    /// Creates another receiver of the same channel, which has seen what this one has.
    #[track_caller]
    fn clone(&self) -> Receiver<T> {
        Receiver {
            handle: self.handle.create(
                Kind::Receiver,
                Operation::CloneReceiver,
                CoreChannel::watch_clone_receiver,
            ),
            seen: self.seen.clone(),
        }
    }
}

impl<T> Drop for Receiver<T> {
    fn drop(&mut self) {
        self.handle
            .drop_by((CoreChannel::watch_drop, CoreChannel::watch_drop_step));
    }
}

impl<T: fmt::Debug> fmt::Debug for Receiver<T> {
    fn fmt(&self, f: &mut fmt::Formatter<'_>) -> fmt::Result {
        self.handle.fmt(f, Some(&self.seen))
    }
}

impl<T> Handle for Receiver<T> {
    type Value = T;

    fn recorded(&self) -> RecordedHandle<'_> {
        self.handle.of_recorder()
    }

    fn set_text_of(&self, text_of: TextOf<T>) {
        self.handle.set_text_of(text_of);
    }
}
