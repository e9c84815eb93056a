//! The sending half of a watch channel.

use super::error::SendError;
use super::{Receiver, Ref, WatchHandle, channel};
use crate::channels::channel::{Access, CallSite, CoreChannel, LockedChannel, call_site};
use crate::channels::handle::{Kind, Usual};
use crate::channels::lock::lock as lock_channel;
use crate::channels::of_version::only_if_tokio_has;
use crate::channels::recorder::{Handle, RecordedHandle, TextOf};
use crate::channels::results::ReplyResult;
use crate::channels::wait::{Method, WaitFor};
use std::future::Future;
use std::{fmt, panic};
use yovanelum_core::source::rw_values::store_sent;
use yovanelum_record::operation::Operation;
use yovanelum_record::reply::Reply;

/// The sending half of a watch channel.
///
/// [`channel`](super::channel) and [`Sender::new`] create the first sender, `clone` creates further
/// ones. A sender may be used from many threads: each method needs only `&self`. As in tokio, the
/// channel is closed for its receivers when the last sender is dropped.
///
/// # Examples
///
/// ```
/// use std::thread;
/// use yovanelum::watch;
///
/// let (progress, rx) = watch::channel(0);
/// let workers = [10, 20].map(|files| {
///     let progress = progress.clone();
///     thread::spawn(move || progress.send_modify(|done| *done += files))
/// });
/// for worker in workers {
///     worker.join().unwrap();
/// }
/// assert_eq!(*rx.borrow(), 30);
/// ```
pub struct Sender<T> {
    pub(super) handle: WatchHandle<T>,
}

impl<T> Sender<T> {
    /// Creates a watch channel that holds this value and has no receiver, and returns its first
    /// sender.
    ///
    /// As in tokio, this is [`channel`](super::channel) without the receiver:
    /// [`subscribe`](Sender::subscribe) creates one. The journal begins with the drop of receiver
    /// 1, so the first receiver that is created has the number 2.
    ///
    /// # Examples
    ///
    /// ```
    /// use yovanelum::watch;
    ///
    /// let config = watch::Sender::new("log = info");
    /// assert!(config.is_closed());
    /// let rx = config.subscribe();
    /// assert!(!config.is_closed());
    /// assert_eq!(*rx.borrow(), "log = info");
    /// ```
    #[track_caller]
    pub fn new(init: T) -> Sender<T> {
        only_if_tokio_has!("watch::Sender::new");
        // The core opens each channel with a receiver.
        let (sender, receiver) = channel(init);
        drop(receiver);
        sender
    }

    /// Replaces the value and notifies all receivers.
    ///
    /// The value from before is dropped. The call blocks while a [`Ref`] of the channel is alive;
    /// without receivers it returns at once.
    ///
    /// # Errors
    ///
    /// Returns [`SendError`] with the new value if the channel has no receiver. As in tokio,
    /// receivers that are created later do not see that value: the previous one stays.
    /// [`send_replace`](Sender::send_replace), [`send_modify`](Sender::send_modify) and
    /// [`send_if_modified`](Sender::send_if_modified) change the value also without receivers.
    ///
    /// # Examples
    ///
    /// ```
    /// use yovanelum::watch;
    ///
    /// let (config, rx) = watch::channel("log = info");
    /// config.send("log = debug").unwrap();
    /// assert_eq!(*rx.borrow(), "log = debug");
    /// drop(rx);
    /// assert_eq!(config.send("log = warn").unwrap_err().0, "log = warn");
    /// assert_eq!(*config.subscribe().borrow(), "log = debug");
    /// ```
    #[track_caller]
    pub fn send(&self, mut value: T) -> Result<(), SendError<T>> {
        let is_sent = self.send_in_place(&mut value, call_site());
        // Of a value that was sent, the one before is in its place, and is dropped here.
        if is_sent {
            Ok(())
        } else {
            Err(SendError(value))
        }
    }

    #[inline(always)]
    fn send_in_place(&self, value: &mut T, called_at: CallSite) -> bool {
        if cfg!(debug_assertions) {
            return self.send_any(value, called_at);
        }
        match self.handle.usual() {
            Usual::Unrecorded(access) => self.send_with(value, None, access, called_at),
            Usual::Recorded(access) if !self.handle.channel.has_text_of() => {
                self.send_with(value, None, access, called_at)
            }
            _ => self.send_any(value, called_at),
        }
    }

    /// Sends a value, whatever the channel has.
    #[cfg_attr(debug_assertions, inline(always))]
    #[cfg_attr(not(debug_assertions), inline(never))]
    fn send_any(&self, value: &mut T, called_at: CallSite) -> bool {
        if self.handle.channel.has_text_of() {
            self.send_with_text(value, called_at)
        } else {
            let access = self.handle.pass(Operation::Send, called_at);
            self.send_with(value, None, access, called_at)
        }
    }

    /// Sends a value with its text. It is apart, so that what is sent without one carries nothing
    /// of it.
    #[cold]
    fn send_with_text(&self, value: &mut T, called_at: CallSite) -> bool {
        let text = self.handle.channel.text(value);
        let access = self.handle.pass(Operation::Send, called_at);
        self.send_with(value, text, access, called_at)
    }

    /// Sends a value, given its text if it has one. It swaps the value with the one before, so
    /// that a large one isn't moved from one part of the call to the next. Returns whether there
    /// was a receiver, and else has changed nothing.
    #[inline(always)]
    fn send_with<'a>(
        &'a self,
        value: &mut T,
        text: Option<String>,
        access: Access<'a>,
        called_at: CallSite,
    ) -> bool {
        let Some(mut stored) = self.handle.channel.values.try_write() else {
            return self.send_to_locked(value, text, access, called_at);
        };
        let mut channel = self.handle.lock_with(access, called_at);
        let reply = self.send_to(&mut *stored, &mut channel, value, text);
        // A waker may look at the value, so it is unlocked before those who wait for it are woken.
        drop(stored);
        channel.unlock_and_wake(reply);
        reply.says_stored()
    }

    /// Sends a value while the one before is locked, perhaps by this thread. Without receivers the
    /// send changes nothing, so it doesn't wait.
    #[cold]
    fn send_to_locked<'a>(
        &'a self,
        value: &mut T,
        text: Option<String>,
        access: Access<'a>,
        called_at: CallSite,
    ) -> bool {
        let mut channel = self.handle.lock_with(access, called_at);
        if channel.core().receivers() == 0 {
            let (_, reply) = channel.send(text, CoreChannel::watch_send);
            assert!(matches!(reply, Reply::NoReceivers(_)), "{reply:?}");
            return false;
        }
        let access = channel.into_access();
        let method = Method {
            name: "send",
            called_at,
        };
        let mut stored = self.handle.write_value(method);
        let mut channel = self.handle.lock_with(access, called_at);
        let reply = self.send_to(&mut *stored, &mut channel, value, text);
        drop(stored);
        channel.unlock_and_wake(reply);
        reply.says_stored()
    }

    /// Changes the value where it is stored, and notifies all receivers.
    ///
    /// As in tokio, the value need not be allocated again, and it is changed also if there is no
    /// receiver. If the change depends on the value, use
    /// [`send_if_modified`](Sender::send_if_modified). The call blocks while a [`Ref`] of the
    /// channel is alive.
    ///
    /// # Panics
    ///
    /// Panics if the closure panics. As in tokio, receivers are not notified then, and a later look
    /// at the value sees what the closure has changed so far.
    ///
    /// The closure runs while the value is locked. Panics if the closure waits for the value of
    /// this channel, by a look at it or by a send. Unlike tokio, where this is a deadlock.
    ///
    /// # Examples
    ///
    /// ```
    /// use yovanelum::watch;
    ///
    /// let (config, rx) = watch::channel(vec!["log = info"]);
    /// config.send_modify(|lines| lines.push("port = 80"));
    /// assert!(rx.has_changed().unwrap());
    /// assert_eq!(*rx.borrow(), ["log = info", "port = 80"]);
    /// ```
    #[track_caller]
    pub fn send_modify<F>(&self, modify: F)
    where
        F: FnOnce(&mut T),
    {
        self.modify_by(Method::called("send_modify"), |value| {
            modify(value);
            true
        });
    }

    /// Changes the value where it is stored, and notifies all receivers if the closure returns
    /// `true`.
    ///
    /// Returns what the closure returns. As in tokio, the closure should return `false` only if it
    /// has not changed the value. If it has changed it all the same, a later look sees the changed
    /// value, but no receiver is notified of it. The call blocks while a [`Ref`] of the channel is
    /// alive.
    ///
    /// # Panics
    ///
    /// As [`send_modify`](Sender::send_modify).
    ///
    /// # Examples
    ///
    /// ```
    /// use yovanelum::watch;
    ///
    /// let (highest, mut rx) = watch::channel(101);
    /// let raise_to = |price| {
    ///     highest.send_if_modified(|highest| {
    ///         let is_higher = price > *highest;
    ///         if is_higher {
    ///             *highest = price;
    ///         }
    ///         is_higher
    ///     })
    /// };
    /// assert!(!raise_to(100));
    /// assert!(!rx.has_changed().unwrap());
    /// assert!(raise_to(102));
    /// assert!(rx.has_changed().unwrap());
    /// assert_eq!(*rx.borrow_and_update(), 102);
    ///
    /// // A change that no receiver is notified of.
    /// highest.send_if_modified(|highest| {
    ///     *highest = 103;
    ///     false
    /// });
    /// assert!(!rx.has_changed().unwrap());
    /// assert_eq!(*rx.borrow(), 103);
    /// ```
    #[track_caller]
    pub fn send_if_modified<F>(&self, modify: F) -> bool
    where
        F: FnOnce(&mut T) -> bool,
    {
        self.modify_by(Method::called("send_if_modified"), modify)
    }

    /// Changes the value by a closure, which the caller has passed to this method, and notifies all
    /// receivers if it returns `true`.
    fn modify_by<F>(&self, method: Method, modify: F) -> bool
    where
        F: FnOnce(&mut T) -> bool,
    {
        let called_at = method.called_at;
        self.handle
            .recorded()
            .pass_to_modify(self.handle.number, called_at);
        let lock = &self.handle.channel.values;
        let mut value = self.handle.write_value(method);
        let result = lock.run_changing(|| modify(&mut value));
        let notify = matches!(result, Ok(true));
        // The value has changed, so the core and the receivers are notified even if the function
        // for its text panics.
        let channel = &self.handle.channel;
        let ((text, later), text_panic) = match lock.run_changing(|| channel.text_in_place(&value))
        {
            Ok(texts) => (texts, None),
            Err(panicked) => ((None, None), Some(panicked)),
        };
        let mut channel = self.handle.lock(Operation::Modify, called_at);
        let (number, reply) = channel.send(
            text,
            if notify {
                |core, caller, sender, number| core.watch_modify(caller, sender, true, number)
            } else {
                |core, caller, sender, number| core.watch_modify(caller, sender, false, number)
            },
        );
        if reply.is_change() {
            lock.version.note_change();
        }
        drop(value);
        channel.unlock_and_wake(reply);
        if let Some(text) = later.and_then(|later| later()) {
            lock_channel(&self.handle.recorded().state).store_late_text(number, text);
        }
        match (result, text_panic) {
            (Err(panicked), _) | (Ok(_), Some(panicked)) => panic::resume_unwind(panicked),
            (Ok(is_modified), None) => is_modified,
        }
    }

    /// Replaces the value, notifies all receivers, and returns the value from before.
    ///
    /// As in tokio, the buffers of that value can be used again, and the value is replaced also if
    /// there is no receiver. The call blocks while a [`Ref`] of the channel is alive.
    ///
    /// # Examples
    ///
    /// ```
    /// use yovanelum::watch;
    ///
    /// let config = watch::Sender::new("log = info");
    /// // There is no receiver.
    /// assert_eq!(config.send_replace("log = debug"), "log = info");
    /// assert_eq!(*config.subscribe().borrow(), "log = debug");
    /// ```
    #[track_caller]
    pub fn send_replace(&self, mut value: T) -> T {
        let text = self.handle.channel.text(&value);
        let method = Method::called("send_replace");
        let called_at = method.called_at;
        let access = self.handle.pass(Operation::SendReplace, called_at);
        let mut stored = self.handle.write_value(method);
        let mut channel = self.handle.lock_with(access, called_at);
        let (_, reply) = channel.send(text, CoreChannel::watch_send_replace);
        if reply.is_change() {
            self.handle.channel.values.version.note_change();
        }
        store_sent(&mut *stored, &mut value, reply.says_stored());
        drop(stored);
        channel.unlock_and_wake(reply);
        value
    }

    /// Returns a reference to the last value.
    ///
    /// As in tokio, the reference holds a read lock: senders block until it is dropped, so keep it
    /// for a short time.
    ///
    /// # Examples
    ///
    /// ```
    /// use yovanelum::watch;
    ///
    /// let (config, _rx) = watch::channel("log = info");
    /// assert_eq!(*config.borrow(), "log = info");
    /// config.send("log = debug").unwrap();
    /// assert_eq!(*config.borrow(), "log = debug");
    /// ```
    #[track_caller]
    pub fn borrow(&self) -> Ref<'_, T> {
        self.handle.borrow(None)
    }

    /// Returns `true` if the channel has no receiver.
    ///
    /// As in tokio, this is the case once every receiver has been dropped;
    /// [`subscribe`](Sender::subscribe) opens the channel again.
    ///
    /// # Examples
    ///
    /// ```
    /// use yovanelum::watch;
    ///
    /// let (config, rx) = watch::channel("log = info");
    /// assert!(!config.is_closed());
    /// drop(rx);
    /// assert!(config.is_closed());
    /// let _rx = config.subscribe();
    /// assert!(!config.is_closed());
    /// ```
    #[track_caller]
    #[inline]
    pub fn is_closed(&self) -> bool {
        if self.handle.recorded().recorder.0.is_none() {
            return self.handle.alive(Kind::Receiver) == 0;
        }
        self.is_closed_recorded(call_site())
    }

    /// As [`is_closed`](Sender::is_closed), where there is a recorder.
    #[inline(never)]
    fn is_closed_recorded(&self, called_at: CallSite) -> bool {
        let (handle, word) = (&self.handle, Operation::IsClosed);
        if handle.recorded().is_quiet(handle.number, word, called_at) {
            return handle.alive(Kind::Receiver) == 0;
        }
        let reply = handle
            .lock(word, called_at)
            .call(CoreChannel::watch_is_closed);
        reply == Reply::flag(true)
    }

    /// Waits until the channel has no receiver.
    ///
    /// If there is none at the call, the future completes at once. As in tokio, a producer learns
    /// by it that its values are no longer needed, and [`subscribe`](Sender::subscribe) opens the
    /// channel again. If receivers are created right after the last one was dropped, the future may
    /// complete or continue to wait.
    ///
    /// # Cancel safety
    ///
    /// As in tokio, nothing has changed if the future is dropped before it completes. It is then
    /// not recorded.
    ///
    /// # Examples
    ///
    /// ```
    /// use std::thread;
    /// use yovanelum::{block_on, watch};
    ///
    /// let (price, chart) = watch::channel(101);
    /// let window = thread::spawn(move || drop(chart));
    /// block_on(price.closed());
    /// assert!(price.is_closed());
    /// window.join().unwrap();
    /// ```
    #[track_caller]
    pub fn closed(&self) -> impl Future<Output = ()> {
        let method = Method::called("closed");
        self.handle
            .wait(WaitFor::NoReceiver, Operation::Closed, method, |channel| {
                channel.call(CoreChannel::watch_closed).closed()
            })
    }

    /// Creates a receiver, which has seen the value that the channel holds.
    ///
    /// As in tokio, [`changed`](Receiver::changed) then waits for the next value, and a channel
    /// without receivers is open again. Other receivers are not affected.
    ///
    /// # Examples
    ///
    /// ```
    /// use yovanelum::watch;
    ///
    /// let config = watch::Sender::new("log = info");
    /// config.send_replace("log = debug");
    /// let rx = config.subscribe();
    /// assert!(!rx.has_changed().unwrap());
    /// assert_eq!(*rx.borrow(), "log = debug");
    /// config.send("log = warn").unwrap();
    /// assert!(rx.has_changed().unwrap());
    /// ```
    #[track_caller]
    pub fn subscribe(&self) -> Receiver<T> {
        let (kind, word) = (Kind::Receiver, Operation::Subscribe);
        let version = &self.handle.channel.values.version;
        let (handle, seen) =
            self.handle
                .create_with(kind, word, CoreChannel::watch_subscribe, || {
                    version.seen_now()
                });
        Receiver { handle, seen }
    }

    /// Returns the number of receivers that are alive, as in tokio.
    ///
    /// # Examples
    ///
    /// ```
    /// use yovanelum::watch;
    ///
    /// let (config, rx) = watch::channel("log = info");
    /// let other = rx.clone();
    /// assert_eq!(config.receiver_count(), 2);
    /// drop((rx, other));
    /// assert_eq!(config.receiver_count(), 0);
    /// ```
    #[track_caller]
    pub fn receiver_count(&self) -> usize {
        self.handle.ask_alive(
            Kind::Receiver,
            Operation::ReceiverCount,
            CoreChannel::watch_receiver_count,
        )
    }

    /// Returns the number of senders that are alive, as in tokio. It is not recorded.
    ///
    /// # Examples
    ///
    /// ```
    /// use yovanelum::watch;
    ///
    /// let (config, _rx) = watch::channel("log = info");
    /// let other = config.clone();
    /// assert_eq!(config.sender_count(), 2);
    /// drop(other);
    /// assert_eq!(config.sender_count(), 1);
    /// ```
    pub fn sender_count(&self) -> usize {
        only_if_tokio_has!("watch::Sender::sender_count");
        self.handle.alive(Kind::Sender)
    }

    /// Returns `true` if both senders belong to the same channel, as in tokio. It is not recorded.
    ///
    /// # Examples
    ///
    /// ```
    /// use yovanelum::watch;
    ///
    /// let config = watch::Sender::new("log = info");
    /// let state = watch::Sender::new("starting");
    /// assert!(config.same_channel(&config.clone()));
    /// assert!(!config.same_channel(&state));
    /// ```
    pub fn same_channel(&self, other: &Self) -> bool {
        only_if_tokio_has!("watch::Sender::same_channel");
        self.handle.same_channel(&other.handle)
    }
}

impl<T> Sender<T> {
    /// Makes the call that sends a value, and stores the value if there is a receiver.
    // What is locked is lent: if it was moved here, it would be stored in memory once more.
    #[inline(always)]
    fn send_to(
        &self,
        stored: &mut T,
        channel: &mut LockedChannel<'_>,
        value: &mut T,
        text: Option<String>,
    ) -> Reply {
        let (_, reply) = channel.send(text, CoreChannel::watch_send);
        if reply.is_change() {
            self.handle.channel.values.version.note_change();
        }
        store_sent(stored, value, reply.says_stored());
        reply
    }
}

impl<T> Clone for Sender<T> {
    /// Creates another sender of the same channel.
    #[track_caller]
    fn clone(&self) -> Sender<T> {
        only_if_tokio_has!("watch::Sender::clone");
        Sender {
            handle: self.handle.create(
                Kind::Sender,
                Operation::CloneSender,
                CoreChannel::watch_clone_sender,
            ),
        }
    }
}

impl<T: Default> Default for Sender<T> {
    #[track_caller]
    fn default() -> Sender<T> {
        only_if_tokio_has!("watch::Sender::default");
        Sender::new(T::default())
    }
}

impl<T> Drop for Sender<T> {
    fn drop(&mut self) {
        let note = || {
            if self.handle.alive(Kind::Sender) == 0 {
                self.handle.channel.values.version.note_close();
            }
        };
        self.handle.drop_with(
            (CoreChannel::watch_drop, CoreChannel::watch_drop_step),
            note,
        );
    }
}

impl<T: fmt::Debug> fmt::Debug for Sender<T> {
    fn fmt(&self, f: &mut fmt::Formatter<'_>) -> fmt::Result {
        self.handle.fmt(f, None)
    }
}

impl<T> Handle for Sender<T> {
    type Value = T;

    fn recorded(&self) -> RecordedHandle<'_> {
        self.handle.of_recorder()
    }

    fn set_text_of(&self, text_of: TextOf<T>) {
        self.handle.set_text_of(text_of);
    }
}
