//! The last sender of a channel is dropped.

use super::{ChannelOf, values};
use crate::channels::actors::{self, CallerNumber};
use crate::channels::channel::ChannelState;
use std::fmt;
use std::panic::Location;

/// A channel whose last sender was dropped, as [`on_close`](crate::on_close) and
/// [`Recorder::on_close`](crate::Recorder::on_close) pass it to their closure.
///
/// With `Display` it is one line.
///
/// # Examples
///
/// ```
/// use std::sync::Mutex;
/// use yovanelum::{Close, Recorder, broadcast};
///
/// static CLOSED: Mutex<Vec<Close>> = Mutex::new(vec![]);
///
/// let recorder = Recorder::new();
/// recorder.on_close(|close| CLOSED.lock().unwrap().push(close.clone()));
/// let _entered = recorder.enter();
/// let (prices, _chart) = broadcast::channel(2);
/// recorder.name(&prices, "prices");
/// prices.send(101).unwrap();
/// drop(prices);
///
/// let close = &CLOSED.lock().unwrap()[0];
/// assert_eq!((close.channel(), close.sent()), ("prices", 1));
/// assert_eq!((close.receivers(), close.unread()), (1, 1));
/// ```
#[derive(Clone, Debug, PartialEq, Eq)]
pub struct Close {
    channel: ChannelOf,
    closed_by: String,
    sent: u64,
    receivers: u64,
    unread: u64,
}

impl Close {
    /// Describes the channel whose last sender the current caller has dropped.
    pub(crate) fn new(state: &mut ChannelState) -> Close {
        let mut closed_by = String::new();
        actors::write_caller(CallerNumber::NOBODY, &mut closed_by);
        Close {
            channel: ChannelOf::new(state),
            closed_by,
            sent: state.sent_count(),
            receivers: state.receivers.iter().count() as u64,
            unread: state.greatest_unread(),
        }
    }

    /// Returns the name of the channel, or `channel at src/main.rs:9` with the place of its
    /// creation if it has none.
    pub fn channel(&self) -> &str {
        &self.channel.name
    }

    /// Returns where the channel was created.
    pub fn channel_made_at(&self) -> Option<&'static Location<'static>> {
        self.channel.made_at
    }

    /// Returns the capacity that a broadcast channel was created with, and `None` for a watch
    /// channel.
    pub fn capacity(&self) -> Option<usize> {
        self.channel.capacity
    }

    /// Returns the name of the thread, task or [`named`](crate::named) future that dropped the last
    /// sender.
    pub fn closed_by(&self) -> &str {
        &self.closed_by
    }

    /// Returns how many values were sent on the channel. The one that a watch channel was created
    /// with is not among them.
    pub fn sent(&self) -> u64 {
        self.sent
    }

    /// Returns how many receivers are still there.
    pub fn receivers(&self) -> u64 {
        self.receivers
    }

    /// Returns how many values the receiver that is most behind has yet to receive. On a watch
    /// channel it is 1 at most.
    pub fn unread(&self) -> u64 {
        self.unread
    }

    /// Returns the name of the thread, task or [`named`](crate::named) future that sent last, if
    /// anything was sent.
    pub fn sender(&self) -> Option<&str> {
        self.channel.sender.as_deref()
    }

    /// Returns where that send was called.
    pub fn sent_at(&self) -> Option<&'static Location<'static>> {
        self.channel.sent_at
    }
}

impl fmt::Display for Close {
    /// Formats it as in ``prices` was closed by exchange after 120 values, with 2 receivers, of
    /// which one has 16 to receive; the last send was by exchange at src/exchange.rs:20``.
    fn fmt(&self, f: &mut fmt::Formatter<'_>) -> fmt::Result {
        let (channel, closed_by, sent) = (self.channel(), &self.closed_by, values(self.sent));
        write!(f, "`{channel}` was closed by {closed_by} after {sent}")?;
        match self.receivers {
            0 => write!(f, ", without receivers")?,
            1 => write!(f, ", with 1 receiver, which has {} to receive", self.unread)?,
            count => write!(
                f,
                ", with {count} receivers, of which one has {} to receive",
                self.unread
            )?,
        }
        self.channel.fmt_sender(f)
    }
}
