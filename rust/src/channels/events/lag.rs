//! A receiver lagged.

use super::{ChannelOf, values};
use crate::channels::channel::{CallSite, ChannelState, Slot};
use crate::channels::handle::Kind;
use crate::channels::recorder::RecordedBy;
use std::fmt;
use std::panic::Location;

/// A receiver of a broadcast channel that lagged, as [`on_lag`](crate::on_lag) and
/// [`Recorder::on_lag`](crate::Recorder::on_lag) pass it to their closure.
///
/// It says how the channel was when the receive returned `Lagged`. With `Display` it is one line.
///
/// # Examples
///
/// ```
/// use std::sync::Mutex;
/// use yovanelum::{Lag, Recorder, broadcast};
///
/// static LAGS: Mutex<Vec<Lag>> = Mutex::new(vec![]);
///
/// let recorder = Recorder::new();
/// recorder.on_lag(|lag| LAGS.lock().unwrap().push(lag.clone()));
/// let _entered = recorder.enter();
/// let (prices, mut chart) = broadcast::channel(2);
/// recorder.name(&prices, "prices").name(&chart, "chart");
/// for price in [101, 102, 103] {
///     prices.send(price).unwrap();
/// }
/// assert!(chart.try_recv().is_err());
///
/// let lag = &LAGS.lock().unwrap()[0];
/// assert_eq!((lag.channel(), lag.capacity()), ("prices", 2));
/// assert_eq!((lag.receiver(), lag.lost(), lag.unread()), ("chart", 1, 2));
/// ```
#[derive(Clone, Debug, PartialEq, Eq)]
pub struct Lag {
    channel: ChannelOf,
    receiver: String,
    receiver_made_at: CallSite,
    received_at: CallSite,
    lost: u64,
    lost_in_all: u64,
    unread: u64,
    overwritten: Option<(String, CallSite)>,
}

impl Lag {
    /// Describes the receiver with this number and this slot, which lagged by `lost` values, as a
    /// receive here returned. The recorder may have kept who overwrote them.
    pub(crate) fn new(
        recorder: &RecordedBy,
        state: &mut ChannelState,
        (number, slot): (u32, Slot),
        received_at: CallSite,
        lost: u64,
    ) -> Lag {
        // Each send after the one that overwrote the first has overwritten one more.
        let send = state.send_before_last(lost);
        let overwritten =
            send.and_then(|send| Some((recorder.name_of_sender(&send)?, send.called_at)));
        let unread = state.core.unread(number);
        let receiver = state.receivers.get(slot);
        Lag {
            channel: ChannelOf::new(state),
            receiver: state.handle_name(Kind::Receiver, number),
            receiver_made_at: receiver.made_at,
            received_at,
            lost,
            lost_in_all: receiver.lost,
            unread,
            overwritten,
        }
    }

    /// Returns the name of the channel, or `channel at src/main.rs:9` with the place of its
    /// creation if it has none.
    pub fn channel(&self) -> &str {
        &self.channel.name
    }

    /// Returns where the channel was created.
    pub fn channel_made_at(&self) -> Option<&'static Location<'static>> {
        self.channel.made_at
    }

    /// Returns the capacity that the channel was created with.
    pub fn capacity(&self) -> usize {
        self.channel.capacity.unwrap_or_default()
    }

    /// Returns the name of the receiver, or `receiver 1` with its number in the channel if it has
    /// none.
    pub fn receiver(&self) -> &str {
        &self.receiver
    }

    /// Returns where the receiver was created.
    pub fn receiver_made_at(&self) -> Option<&'static Location<'static>> {
        self.receiver_made_at
    }

    /// Returns where the receive was called that returned `Lagged`. For a stream, it is where the
    /// stream was created.
    pub fn received_at(&self) -> Option<&'static Location<'static>> {
        self.received_at
    }

    /// Returns how many values the receiver has lost now: the number of `Lagged`.
    pub fn lost(&self) -> u64 {
        self.lost
    }

    /// Returns how many values the receiver has lost since it was created, these included.
    pub fn lost_in_all(&self) -> u64 {
        self.lost_in_all
    }

    /// Returns how many values the receiver has yet to receive. They are all retained.
    pub fn unread(&self) -> u64 {
        self.unread
    }

    /// Returns the name of the thread, task or [`named`](crate::named) future whose send overwrote
    /// the first of the lost values, if a recorder keeps that send.
    ///
    /// # Examples
    ///
    /// Who sends last has overwritten the second one here:
    ///
    /// ```
    /// use yovanelum::{Recorder, block_on, broadcast, named};
    ///
    /// let recorder = Recorder::new();
    /// recorder.on_lag(|lag| assert_eq!(lag.overwritten_by(), Some("eager")));
    /// let _entered = recorder.enter();
    /// let (prices, mut chart) = broadcast::channel(2);
    /// for (sender, price) in [("calm", 101), ("calm", 102), ("eager", 103), ("calm", 104)] {
    ///     block_on(named(sender, async { prices.send(price) })).unwrap();
    /// }
    /// assert!(chart.try_recv().is_err());
    /// ```
    pub fn overwritten_by(&self) -> Option<&str> {
        self.overwritten.as_ref().map(|(sender, _)| sender.as_str())
    }

    /// Returns where that send was called.
    pub fn overwritten_at(&self) -> Option<&'static Location<'static>> {
        self.overwritten.as_ref()?.1
    }

    /// Returns the name of the thread, task or [`named`](crate::named) future that sent last.
    pub fn sender(&self) -> Option<&str> {
        self.channel.sender.as_deref()
    }

    /// Returns where that send was called.
    pub fn sent_at(&self) -> Option<&'static Location<'static>> {
        self.channel.sent_at
    }
}

impl fmt::Display for Lag {
    /// Formats it as in ``audit` lost 17 values of `prices` (capacity 16), 34 in all, and has 16 to
    /// receive; the first was overwritten by exchange at src/exchange.rs:20``. Where no recorder
    /// keeps that send, it says whose the last send was.
    fn fmt(&self, f: &mut fmt::Formatter<'_>) -> fmt::Result {
        let (receiver, channel, capacity) = (&self.receiver, self.channel(), self.capacity());
        let lost = values(self.lost);
        write!(
            f,
            "`{receiver}` lost {lost} of `{channel}` (capacity {capacity})"
        )?;
        write!(
            f,
            ", {} in all, and has {} to receive",
            self.lost_in_all, self.unread
        )?;
        match &self.overwritten {
            Some((sender, Some(at))) => {
                let (file, line) = (at.file(), at.line());
                write!(
                    f,
                    "; the first was overwritten by {sender} at {file}:{line}"
                )
            }
            _ => self.channel.fmt_sender(f),
        }
    }
}
