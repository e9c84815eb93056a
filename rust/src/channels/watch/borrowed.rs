//! A reference to the value of a watch channel.

use super::looks::LiveLook;
use std::fmt;
use std::ops::Deref;
use std::sync::RwLockReadGuard;

/// A reference to the value of a watch channel, which holds a read lock on it.
///
/// [`Receiver::borrow`], [`Receiver::borrow_and_update`], [`Receiver::wait_for`] and
/// [`Sender::borrow`] return it. It dereferences to the value, and the value does not change while
/// it is alive.
///
/// As in tokio, a sender that changes the value blocks until every `Ref` of the channel has been
/// dropped. So keep a `Ref` for a short time, and not across an `.await`. A thread that holds a
/// `Ref` and sends on the same channel may wait forever.
///
/// [`Receiver::borrow`]: super::Receiver::borrow
/// [`Receiver::borrow_and_update`]: super::Receiver::borrow_and_update
/// [`Receiver::wait_for`]: super::Receiver::wait_for
/// [`Sender::borrow`]: super::Sender::borrow
///
/// # Examples
///
/// ```
/// use yovanelum::watch::{self, Ref};
///
/// let (config, rx) = watch::channel(vec!["log = info"]);
/// {
///     let lines: Ref<'_, Vec<_>> = rx.borrow();
///     assert_eq!(lines.len(), 1);
/// }
/// // The reference has been dropped, so the send does not wait.
/// config.send(vec!["log = info", "port = 80"]).unwrap();
/// assert_eq!(rx.borrow().len(), 2);
/// ```
pub struct Ref<'a, T> {
    // It ends before the lock is released, so a look that is listed still holds the lock.
    pub(super) _look: Option<LiveLook<'a>>,
    pub(super) inner: RwLockReadGuard<'a, T>,
    pub(super) has_changed: bool,
}

impl<T> Ref<'_, T> {
    /// Returns `true` if the receiver had not seen the value when it borrowed it.
    ///
    /// As in tokio, it does not fail if the channel is closed, and for a `Ref` of a sender it is
    /// always `false`.
    ///
    /// # Examples
    ///
    /// ```
    /// use yovanelum::watch;
    ///
    /// let (config, mut rx) = watch::channel("log = info");
    /// assert!(!rx.borrow_and_update().has_changed());
    /// config.send("log = debug").unwrap();
    /// assert!(!config.borrow().has_changed());
    /// assert!(rx.borrow().has_changed());
    /// assert!(rx.borrow_and_update().has_changed());
    /// assert!(!rx.borrow_and_update().has_changed());
    /// ```
    pub fn has_changed(&self) -> bool {
        self.has_changed
    }
}

impl<T> Deref for Ref<'_, T> {
    type Target = T;

    fn deref(&self) -> &T {
        &self.inner
    }
}

impl<T: fmt::Debug> fmt::Debug for Ref<'_, T> {
    fn fmt(&self, f: &mut fmt::Formatter<'_>) -> fmt::Result {
        f.debug_struct("Ref")
            .field("inner", &*self.inner)
            .field("has_changed", &self.has_changed)
            .finish()
    }
}
