//! Senders that do not keep a broadcast channel open.

use super::{BroadcastHandle, Sender};
use crate::channels::channel::{CoreChannel, call_site};
use crate::channels::handle::Kind;
use crate::channels::recorder::{Handle, RecordedHandle, TextOf};
use crate::channels::results::ReplyResult;
use std::fmt;
use yovanelum_record::operation::Operation;

/// A sender that does not keep the channel open.
///
/// As in tokio, the channel is closed when every [`Sender`] has been dropped, also if weak senders
/// are left. To send, [`upgrade`](WeakSender::upgrade) a weak sender to a sender.
/// [`Sender::downgrade`] and `clone` create weak senders.
///
/// # Examples
///
/// A plugin that may send as long as the application runs:
///
/// ```
/// use yovanelum::broadcast;
///
/// let (bus, mut audit) = broadcast::channel(4);
/// let plugin = bus.downgrade();
/// if let Some(bus) = plugin.upgrade() {
///     bus.send("plugin loaded").unwrap();
/// }
/// assert_eq!(audit.try_recv(), Ok("plugin loaded"));
/// drop(bus);
/// assert!(audit.is_closed());
/// assert!(plugin.upgrade().is_none());
/// ```
pub struct WeakSender<T> {
    pub(super) handle: BroadcastHandle<T>,
}

impl<T> WeakSender<T> {
    /// Creates a sender of the channel, or returns `None` if every sender has been dropped.
    ///
    /// As in tokio, it returns `Some` if another sender is alive. Once it has returned `None`, it
    /// always will: a closed channel stays closed. The weak sender itself is unchanged.
    ///
    /// # Examples
    ///
    /// ```
    /// use yovanelum::broadcast;
    ///
    /// let (bus, _audit) = broadcast::channel::<u32>(4);
    /// let weak = bus.downgrade();
    /// let upgraded = weak.upgrade().unwrap();
    /// drop(bus);
    /// // The upgraded sender is alive.
    /// assert!(weak.upgrade().is_some());
    /// drop(upgraded);
    /// assert!(weak.upgrade().is_none());
    /// ```
    #[must_use]
    #[track_caller]
    pub fn upgrade(&self) -> Option<Sender<T>> {
        let (reply, slot) = self
            .handle
            .lock(Operation::Upgrade, call_site())
            .create(Kind::Sender, CoreChannel::broadcast_upgrade);
        let number = reply.upgraded()?;
        Some(Sender {
            handle: self.handle.sibling(number, slot),
        })
    }

    /// Returns the number of senders that are alive, as in tokio. Weak senders are not counted. It
    /// is not recorded.
    ///
    /// # Examples
    ///
    /// ```
    /// use yovanelum::broadcast;
    ///
    /// let bus = broadcast::Sender::<u32>::new(4);
    /// let weak = bus.downgrade();
    /// assert_eq!(weak.strong_count(), 1);
    /// drop(bus);
    /// assert_eq!(weak.strong_count(), 0);
    /// ```
    pub fn strong_count(&self) -> usize {
        self.handle.alive(Kind::Sender)
    }

    /// Returns the number of weak senders that are alive, this one included, as in tokio. It is not
    /// recorded.
    ///
    /// # Examples
    ///
    /// ```
    /// use yovanelum::broadcast;
    ///
    /// let bus = broadcast::Sender::<u32>::new(4);
    /// let weak = bus.downgrade();
    /// let other = weak.clone();
    /// assert_eq!(weak.weak_count(), 2);
    /// drop(other);
    /// assert_eq!(weak.weak_count(), 1);
    /// ```
    pub fn weak_count(&self) -> usize {
        self.handle.alive(Kind::WeakSender)
    }
}

impl<T> Clone for WeakSender<T> {
    /// Creates another weak sender of the same channel.
    #[track_caller]
    fn clone(&self) -> WeakSender<T> {
        WeakSender {
            handle: self.handle.create(
                Kind::WeakSender,
                Operation::CloneWeak,
                CoreChannel::broadcast_clone_weak,
            ),
        }
    }
}

impl<T> Drop for WeakSender<T> {
    fn drop(&mut self) {
        self.handle.drop_by((
            CoreChannel::broadcast_drop,
            CoreChannel::broadcast_drop_step,
        ));
    }
}

impl<T> fmt::Debug for WeakSender<T> {
    fn fmt(&self, f: &mut fmt::Formatter<'_>) -> fmt::Result {
        write!(f, "broadcast::WeakSender")
    }
}

impl<T> Handle for WeakSender<T> {
    type Value = T;

    fn recorded(&self) -> RecordedHandle<'_> {
        self.handle.of_recorder()
    }

    fn set_text_of(&self, text_of: TextOf<T>) {
        self.handle.channel.set_text_of(text_of);
    }
}
