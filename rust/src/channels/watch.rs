//! A channel that holds one value, the last that was sent: tokio's `sync::watch`, recorded.
//!
//! A [`Sender`] replaces or changes the value. A [`Receiver`] looks at it by
//! [`borrow`](Receiver::borrow), and waits for the next one by [`changed`](Receiver::changed). Only
//! the last value is available: a receiver that looks late does not see the values that were
//! replaced before. So a watch suits a configuration, or a state whose history does not matter.
//! [`channel`] creates a sender and a receiver, and both can be cloned.
//!
//! Names, signatures and results are those of [`tokio::sync::watch`][tokio]. "As in tokio" marks
//! what tokio's documentation says about the same item, in other words. "Unlike tokio" marks a
//! difference.
//!
//! [tokio]: https://docs.rs/tokio/1/tokio/sync/watch/index.html
//!
//! # Seen and unseen values
//!
//! For each receiver the last value is either seen or unseen. The value that the channel is created
//! with is seen by its first receiver, and the value at a call of [`Sender::subscribe`] by the
//! receiver which that call creates. A cloned receiver has seen what the original has.
//! [`changed`](Receiver::changed), [`borrow_and_update`](Receiver::borrow_and_update) and
//! [`wait_for`](Receiver::wait_for) mark the value as seen, [`borrow`](Receiver::borrow) does not.
//! Values are not compared: a value that is sent twice is unseen twice.
//!
//! # Closing
//!
//! The channel is closed for receivers when every [`Sender`] has been dropped. A receiver can still
//! look at the last value. It is closed for senders when every [`Receiver`] has been dropped;
//! [`Sender::subscribe`] opens it again.
//!
//! # Examples
//!
//! A worker that follows a configuration:
//!
//! ```
//! use std::thread;
//! use yovanelum::{block_on, watch};
//!
//! let (config, mut rx) = watch::channel("log = info");
//! let worker = thread::spawn(move || {
//!     block_on(async {
//!         let mut seen = vec![*rx.borrow_and_update()];
//!         while rx.changed().await.is_ok() {
//!             seen.push(*rx.borrow_and_update());
//!         }
//!         seen
//!     })
//! });
//! config.send("log = debug").unwrap();
//! drop(config);
//! assert_eq!(worker.join().unwrap().last(), Some(&"log = debug"));
//! ```

mod borrowed;
pub mod error;
mod looks;
mod receiver;
mod sender;
mod shown;
mod value;
mod version;

pub use borrowed::Ref;
pub use receiver::Receiver;
pub use sender::Sender;

use crate::channels::backend::Spec;
use crate::channels::channel::{
    Access, CoreChannel, LockedChannel, RecordedChannel, TypedChannel, call_site,
};
use crate::channels::handle::{ChannelHandle, Kind};
use crate::channels::lock::lock;
use crate::channels::recorder::TextOf;
use crate::channels::wait::{BlockedCall, Method};
use std::sync::{RwLockReadGuard, RwLockWriteGuard};
use value::ValueLock;
use version::SeenVersion;
use yovanelum_record::operation::Operation;

/// What each sender and receiver is.
type WatchHandle<T> = ChannelHandle<T, ValueLock<T>>;

/// Creates a watch channel that holds this value, and returns its first sender and its first
/// receiver.
///
/// The receiver has seen the value. As in tokio, the receivers can look at the last value alone,
/// and those before it are dropped.
///
/// # Examples
///
/// ```
/// use yovanelum::watch;
///
/// let (config, mut rx) = watch::channel("log = info");
/// assert!(!rx.has_changed().unwrap());
/// config.send("log = warn").unwrap();
/// config.send("log = debug").unwrap();
/// assert!(rx.has_changed().unwrap());
/// assert_eq!(*rx.borrow_and_update(), "log = debug");
/// ```
#[track_caller]
pub fn channel<T>(init: T) -> (Sender<T>, Receiver<T>) {
    // The core knows each value by a number. The first one has 0.
    let Ok(recorded) = RecordedChannel::open(Spec::Watch(0), 1, call_site()) else {
        panic!("yovanelum: no memory for a channel");
    };
    let channel = TypedChannel::shared(recorded, init, ValueLock::store);
    if channel.has_text_of() {
        show_first(&channel);
    }
    let (sender, receiver) = ChannelHandle::first_two(channel);
    let seen = SeenVersion::default();
    let receiver = Receiver {
        handle: receiver,
        seen,
    };
    (Sender { handle: sender }, receiver)
}

/// Gives the value that a channel is created with its text.
#[cold]
fn show_first<T>(channel: &TypedChannel<T, ValueLock<T>>) {
    let text = channel.text(&channel.values.read());
    if let Some(text) = text {
        lock(&channel.recorded.state).store_first_text(text);
    }
}

impl<T> WatchHandle<T> {
    /// Returns a reference to the value, without marking the value as seen. A receiver says what it
    /// has seen.
    #[track_caller]
    #[inline]
    fn borrow(&self, seen: Option<&SeenVersion>) -> Ref<'_, T> {
        let method = Method::called("borrow");
        if self.recorded().recorder.0.is_some() {
            return self.borrow_recorded(&method);
        }
        // No sender changes the version while the value is locked.
        let inner = self.read_value(&method);
        let version = &self.channel.values.version;
        let has_changed = seen.is_some_and(|seen| version.is_unseen_by(seen));
        Ref {
            _look: None,
            inner,
            has_changed,
        }
    }

    /// As [`borrow`](WatchHandle::borrow), where there is a recorder.
    fn borrow_recorded(&self, method: &Method) -> Ref<'_, T> {
        let recorded = self.recorded();
        if recorded.is_quiet(self.number, Operation::Borrow, method.called_at) {
            self.look(self.unordered(), method)
        } else {
            let access = self.pass(Operation::Borrow, method.called_at);
            self.borrow_by(access, method, |channel| {
                let has_changed = self.has_changed(channel);
                channel.call(CoreChannel::watch_borrow);
                has_changed
            })
        }
    }

    /// Returns a reference to the value. The call of this method that looks at it is made by this
    /// access, and says whether this is a receiver that had yet to see it. The value is locked
    /// before the channel, so the value that is returned is the one that the call reads.
    fn borrow_by<'a>(
        &'a self,
        access: Access<'a>,
        method: &Method,
        call: impl FnOnce(&mut LockedChannel<'_>) -> bool,
    ) -> Ref<'a, T> {
        let inner = self.read_value(method);
        let mut channel = self.lock_with(access, method.called_at);
        let has_changed = call(&mut channel);
        self.looked(channel, inner, has_changed)
    }

    /// Returns a reference to the value by a call that leaves no entry.
    #[cfg_attr(debug_assertions, inline(never))]
    #[cfg_attr(not(debug_assertions), inline(always))]
    fn look<'a>(&'a self, access: Access<'a>, method: &Method) -> Ref<'a, T> {
        let inner = self.read_value(method);
        let mut channel = self.lock_with(access, method.called_at);
        let has_changed = self.has_changed(&mut channel);
        self.looked(channel, inner, has_changed)
    }

    /// Unlocks the channel after a call that looks at the value, and returns a reference to it.
    #[inline(always)]
    fn looked<'a>(
        &'a self,
        mut channel: LockedChannel<'_>,
        inner: RwLockReadGuard<'a, T>,
        has_changed: bool,
    ) -> Ref<'a, T> {
        let look = self.channel.values.looks.note(&mut channel);
        channel.unlock();
        Ref {
            _look: look,
            inner,
            has_changed,
        }
    }

    /// Locks the value for this method, to look at it. A call that waits for the lock is listed
    /// meanwhile.
    fn read_value(&self, method: &Method) -> RwLockReadGuard<'_, T> {
        let values = &self.channel.values;
        values.try_read().unwrap_or_else(|| {
            let _blocked = self.list_blocked(*method);
            values.read()
        })
    }

    /// Locks the value for this method, to change it. A call that waits for the lock is listed
    /// meanwhile.
    fn write_value(&self, method: Method) -> RwLockWriteGuard<'_, T> {
        let values = &self.channel.values;
        values.try_write().unwrap_or_else(|| {
            let _blocked = self.list_blocked(method);
            values.write()
        })
    }

    /// Lists a call of this method, which waits for the lock of the value, until the result is
    /// dropped.
    #[cold]
    fn list_blocked(&self, method: Method) -> BlockedCall<'_> {
        let looks = &self.channel.values.looks;
        let handle = (self.number, self.kind());
        BlockedCall::list(self.recorded(), handle, method, |channel| {
            looks.first(channel)
        })
    }

    /// Returns `true` if this is a receiver that has yet to see the value.
    fn has_changed(&self, channel: &mut LockedChannel<'_>) -> bool {
        self.kind() == Kind::Receiver && !channel.has_seen()
    }

    fn set_text_of(&self, text_of: TextOf<T>) {
        // The first value, if it is still the last, gets its text now. It stays in the channel, so
        // it is locked while its text is made.
        let values = &self.channel.values;
        let value = values.try_read().unwrap_or_else(|| values.read());
        let text = values.run_reading(|| text_of.text(&value));
        let is_set = self.channel.set_text_of(text_of);
        if let Some(text) = text.filter(|_| is_set) {
            lock(&self.recorded().state).store_first_text(text);
        }
        drop(value);
    }
}
