//! The channels of a run, as they are at a place.

use yovanelum_core::source::rw_broadcast as core_broadcast;
use yovanelum_core::source::rw_recording::Kind;
use yovanelum_core::source::rw_watch as core_watch;
use yovanelum_core::source::rw_world::Chan;

/// A channel at the place of a [`Walk`](super::Walk). It is asked, and nothing is copied.
#[derive(Clone, Copy)]
pub enum Channel<'a> {
    /// A broadcast channel.
    Broadcast(Broadcast<'a>),
    /// A watch channel.
    Watch(Watch<'a>),
}

/// A broadcast channel at a place.
#[derive(Clone, Copy)]
pub struct Broadcast<'a>(&'a core_broadcast::Broadcast<u64>);

/// A watch channel at a place.
#[derive(Clone, Copy)]
pub struct Watch<'a>(&'a core_watch::Watch<u64>);

/// What a live receiver of a broadcast has received.
#[derive(Clone, Copy, Debug, PartialEq, Eq)]
pub struct BroadcastReceiver {
    /// How many values were sent before the one that it receives next, if that is still retained.
    pub position: u64,
    /// How many values it has yet to receive, those included that were overwritten and that no
    /// `Lagged` has passed over yet.
    pub unread: u64,
    /// How many of these are no longer retained. If there are any, its next receive returns
    /// `Lagged` with this number.
    pub lag: u64,
}

/// What a live receiver of a watch has seen.
#[derive(Clone, Copy, Debug, PartialEq, Eq)]
pub struct WatchReceiver {
    /// The version that it marked as seen last, or `None` after `mark_changed`.
    pub mark: Option<u64>,
    /// Whether it has seen the value.
    pub is_seen: bool,
}

impl<'a> Channel<'a> {
    #[inline]
    pub fn of(channel: &'a Chan<u64>) -> Channel<'a> {
        match channel {
            Chan::Broadcast(channel) => Channel::Broadcast(Broadcast(channel)),
            Chan::Watch(channel) => Channel::Watch(Watch(channel)),
        }
    }

    /// How many handles have been created. They have the numbers from 0 on: sender 0 and receiver 1
    /// came with the channel.
    ///
    /// ```
    /// # use yovanelum::debugger::Walk;
    /// let journal = "ttd-journal 2\nbroadcast 2\nsteps\n1 0 0 subscribe 0 = new 2\nend\n";
    /// let walk = Walk::open(journal.as_bytes())?;
    /// assert_eq!(walk.channel(0).unwrap().made(), 3);
    /// # Ok::<(), yovanelum::debugger::JournalError>(())
    /// ```
    pub fn made(&self) -> u32 {
        match self {
            Channel::Broadcast(channel) => channel.0.made(),
            Channel::Watch(channel) => channel.0.made(),
        }
    }

    /// Whether no sender is alive.
    ///
    /// ```
    /// # use yovanelum::debugger::Walk;
    /// let journal = "ttd-journal 2\nbroadcast 2\nsteps\n1 0 0 drop 0 = dropped\nend\n";
    /// let walk = Walk::open(journal.as_bytes())?;
    /// assert!(walk.channel(0).unwrap().is_closed());
    /// # Ok::<(), yovanelum::debugger::JournalError>(())
    /// ```
    pub fn is_closed(&self) -> bool {
        match self {
            Channel::Broadcast(channel) => channel.0.closed(),
            Channel::Watch(channel) => channel.0.closed(),
        }
    }

    /// The numbers of the senders that are alive.
    ///
    /// ```
    /// # use yovanelum::debugger::Walk;
    /// let journal = "ttd-journal 2\nbroadcast 2\nsteps\n1 0 0 clone-sender 0 = new 2\nend\n";
    /// let walk = Walk::open(journal.as_bytes())?;
    /// assert!(walk.channel(0).unwrap().senders().eq([0, 2]));
    /// # Ok::<(), yovanelum::debugger::JournalError>(())
    /// ```
    pub fn senders(&self) -> impl Iterator<Item = u32> + use<'a> {
        self.alive(Kind::Sender)
    }

    /// The numbers of the weak senders that are alive. A watch has none.
    ///
    /// ```
    /// # use yovanelum::debugger::Walk;
    /// let journal = "ttd-journal 2\nbroadcast 2\nsteps\n1 0 0 downgrade 0 = new 2\nend\n";
    /// let walk = Walk::open(journal.as_bytes())?;
    /// assert!(walk.channel(0).unwrap().weak_senders().eq([2]));
    /// # Ok::<(), yovanelum::debugger::JournalError>(())
    /// ```
    pub fn weak_senders(&self) -> impl Iterator<Item = u32> + use<'a> {
        self.alive(Kind::Weak)
    }

    /// The numbers of the receivers that are alive.
    ///
    /// ```
    /// # use yovanelum::debugger::Walk;
    /// let journal = "ttd-journal 2\nwatch 0\nsteps\n1 0 0 clone-receiver 1 = new 2\nend\n";
    /// let walk = Walk::open(journal.as_bytes())?;
    /// assert!(walk.channel(0).unwrap().receivers().eq([1, 2]));
    /// # Ok::<(), yovanelum::debugger::JournalError>(())
    /// ```
    pub fn receivers(&self) -> impl Iterator<Item = u32> + use<'a> {
        self.alive(Kind::Receiver)
    }

    fn alive(&self, kind: Kind) -> impl Iterator<Item = u32> + use<'a> {
        let channel = *self;
        (0..channel.made()).filter(move |handle| channel.kind(*handle) == Some(kind))
    }

    fn kind(&self, handle: u32) -> Option<Kind> {
        match self {
            Channel::Broadcast(channel) => channel.0.kind(handle),
            Channel::Watch(channel) => channel.0.kind(handle),
        }
    }
}

impl<'a> Broadcast<'a> {
    /// How many values it retains: the least power of two that is at least the capacity that it was
    /// created with.
    ///
    /// ```
    /// # use yovanelum::debugger::{Channel, Walk};
    /// # let journal = "ttd-journal 2\nbroadcast 3\nsteps\nend\n";
    /// # let walk = Walk::open(journal.as_bytes())?;
    /// # let Some(Channel::Broadcast(orders)) = walk.channel(0) else { unreachable!() };
    /// // It was created with capacity 3.
    /// assert_eq!(orders.capacity(), 4);
    /// # Ok::<(), yovanelum::debugger::JournalError>(())
    /// ```
    pub fn capacity(&self) -> u64 {
        self.0.capacity()
    }

    /// How many values have been sent.
    ///
    /// ```
    /// # use yovanelum::debugger::{Channel, Walk};
    /// # let journal = "ttd-journal 2\nbroadcast 3\nsteps\n1 0 0 send 0 0 = sent 1\nend\n";
    /// # let walk = Walk::open(journal.as_bytes())?;
    /// # let Some(Channel::Broadcast(orders)) = walk.channel(0) else { unreachable!() };
    /// assert_eq!(orders.sent(), 1);
    /// # Ok::<(), yovanelum::debugger::JournalError>(())
    /// ```
    pub fn sent(&self) -> u64 {
        self.0.sent()
    }

    /// How many values it retains for some receiver, as tokio's `Sender::len` returns it.
    ///
    /// ```
    /// # use yovanelum::debugger::{Channel, Walk};
    /// # let journal = "ttd-journal 2\nbroadcast 3\nsteps\n1 0 0 send 0 0 = sent 1\n2 0 0 recv 1 = value 0\nend\n";
    /// # let walk = Walk::open(journal.as_bytes())?;
    /// # let Some(Channel::Broadcast(orders)) = walk.channel(0) else { unreachable!() };
    /// assert_eq!(orders.queued(), 0);
    /// # Ok::<(), yovanelum::debugger::JournalError>(())
    /// ```
    pub fn queued(&self) -> u64 {
        self.0.queued()
    }

    /// The retained values, the oldest first.
    ///
    /// ```
    /// # use yovanelum::debugger::{Channel, Walk};
    /// # let journal = "ttd-journal 2\nbroadcast 1\nsteps\n1 0 0 send 0 0 = sent 1\n2 0 0 send 0 1 = sent 1\nend\n";
    /// # let walk = Walk::open(journal.as_bytes())?;
    /// # let Some(Channel::Broadcast(orders)) = walk.channel(0) else { unreachable!() };
    /// assert!(orders.window().eq([1]));
    /// # Ok::<(), yovanelum::debugger::JournalError>(())
    /// ```
    pub fn window(&self) -> impl Iterator<Item = u64> + use<'a> {
        let channel = self.0;
        (0..).map_while(move |index| channel.window(index))
    }

    /// Returns the retained value of this index, from 0 on, which is the oldest.
    ///
    /// ```
    /// # use yovanelum::debugger::{Channel, Walk};
    /// # let journal = "ttd-journal 2\nbroadcast 1\nsteps\n1 0 0 send 0 7 = sent 1\nend\n";
    /// # let walk = Walk::open(journal.as_bytes())?;
    /// # let Some(Channel::Broadcast(orders)) = walk.channel(0) else { unreachable!() };
    /// assert_eq!((orders.value(0), orders.value(1)), (Some(7), None));
    /// # Ok::<(), yovanelum::debugger::JournalError>(())
    /// ```
    pub fn value(&self, index: u64) -> Option<u64> {
        self.0.window(index)
    }

    /// Returns what a receiver has received, or `None` if the handle is no live receiver.
    ///
    /// ```
    /// # use yovanelum::debugger::{BroadcastReceiver, Channel, Walk};
    /// # let journal = "ttd-journal 2\nbroadcast 1\nsteps\n1 0 0 send 0 0 = sent 1\n2 0 0 send 0 1 = sent 1\nend\n";
    /// # let walk = Walk::open(journal.as_bytes())?;
    /// # let Some(Channel::Broadcast(orders)) = walk.channel(0) else { unreachable!() };
    /// let receiver = BroadcastReceiver { position: 0, unread: 2, lag: 1 };
    /// assert_eq!(orders.receiver(1), Some(receiver));
    /// assert_eq!(orders.receiver(0), None);
    /// # Ok::<(), yovanelum::debugger::JournalError>(())
    /// ```
    #[inline]
    pub fn receiver(&self, handle: u32) -> Option<BroadcastReceiver> {
        Some(BroadcastReceiver {
            position: self.0.position(handle)?,
            unread: self.0.unread(handle)?,
            lag: self.0.lag(handle)?,
        })
    }
}

impl Watch<'_> {
    /// The value.
    ///
    /// ```
    /// # use yovanelum::debugger::{Channel, Walk};
    /// # let journal = "ttd-journal 2\nwatch 5\nsteps\nend\n";
    /// # let walk = Walk::open(journal.as_bytes())?;
    /// # let Some(Channel::Watch(level)) = walk.channel(0) else { unreachable!() };
    /// assert_eq!(level.value(), 5);
    /// # Ok::<(), yovanelum::debugger::JournalError>(())
    /// ```
    pub fn value(&self) -> u64 {
        self.0.value()
    }

    /// How often the value was changed, with a notification of the receivers.
    ///
    /// ```
    /// # use yovanelum::debugger::{Channel, Walk};
    /// # let journal = "ttd-journal 2\nwatch 5\nsteps\n1 0 0 send 0 6 = stored\nend\n";
    /// # let walk = Walk::open(journal.as_bytes())?;
    /// # let Some(Channel::Watch(level)) = walk.channel(0) else { unreachable!() };
    /// assert_eq!(level.version(), 1);
    /// # Ok::<(), yovanelum::debugger::JournalError>(())
    /// ```
    pub fn version(&self) -> u64 {
        self.0.version()
    }

    /// Returns what a receiver has seen, or `None` if the handle is no live receiver.
    ///
    /// ```
    /// # use yovanelum::debugger::{Channel, Walk};
    /// # let journal = "ttd-journal 2\nwatch 5\nsteps\n1 0 0 send 0 6 = stored\nend\n";
    /// # let walk = Walk::open(journal.as_bytes())?;
    /// # let Some(Channel::Watch(level)) = walk.channel(0) else { unreachable!() };
    /// assert!(!level.receiver(1).unwrap().is_seen);
    /// assert_eq!(level.receiver(0), None);
    /// # Ok::<(), yovanelum::debugger::JournalError>(())
    /// ```
    #[inline]
    pub fn receiver(&self, handle: u32) -> Option<WatchReceiver> {
        Some(WatchReceiver {
            mark: self.0.mark(handle)?,
            is_seen: self.0.is_seen(handle)?,
        })
    }
}
