//! What is on channels now: how far each receiver is, and who waits.

mod json;
mod table;

use crate::channels::channel::{
    CallSite, ChannelState, LiveReceiver, RegisteredChannel, WaitNow, WaitState, all_channels,
};
use crate::channels::handle::Kind;
use crate::channels::lock::lock;
use crate::channels::recorder::{Handle, Recorder};
use crate::channels::wait::Awaited;
use std::panic::Location;
use std::time::{Duration, SystemTime, UNIX_EPOCH};
use yovanelum_record::listed::{IntoList, Keep, PushAll};
use yovanelum_record::sorting::sort_by_key;

/// Channels as they are at one moment, recorded or not: how much was sent, and how far each
/// receiver is.
///
/// It is what a health page or an exporter of metrics reads. With `Display` it is a table for a
/// person, and [`to_json`](Snapshot::to_json) is for a program. [`snapshot`] is of all channels of
/// the process, and [`Recorder::snapshot`] of those of a recorder.
///
/// Each channel is read under its own lock, so what is said of one channel is of one moment. Other
/// channels may have changed meanwhile.
///
/// # Examples
///
/// The table of a channel with two receivers:
///
/// ```
/// use yovanelum::{Recorder, broadcast};
///
/// let recorder = Recorder::new();
/// let _entered = recorder.enter();
/// let (prices, mut chart) = broadcast::channel(2);
/// let audit = prices.subscribe();
/// recorder.name(&prices, "prices").name(&chart, "chart").name(&audit, "audit");
/// for price in [101, 102, 103] {
///     prices.send(price).unwrap();
/// }
/// assert!(chart.try_recv().is_err());
/// chart.try_recv().unwrap();
///
/// let table = recorder.snapshot().to_string();
/// assert!(table.starts_with("prices: broadcast, capacity 2, sent 3, retained 2, senders 1, last sent by "));
/// assert!(table.contains("\n  receiver  unread  lag  lost  created at"));
/// assert!(table.contains("\n  chart          1    0     1  "));
/// ```
#[derive(Clone, Debug, PartialEq, Eq)]
pub struct Snapshot {
    channels: Vec<ChannelSnapshot>,
}

/// A channel as it is at one moment.
///
/// # Examples
///
/// The channel of a receiver:
///
/// ```
/// use yovanelum::{ChannelSnapshot, broadcast};
///
/// let (prices, chart) = broadcast::channel(2);
/// for price in [101, 102, 103] {
///     prices.send(price).unwrap();
/// }
/// let channel = ChannelSnapshot::of(&chart);
/// assert_eq!((channel.sent(), channel.retained(), channel.senders()), (3, 2, 1));
/// let chart = &channel.receivers()[0];
/// assert_eq!((chart.unread(), chart.lag(), chart.lost()), (3, 1, 0));
/// ```
#[derive(Clone, Debug, PartialEq, Eq)]
pub struct ChannelSnapshot {
    name: String,
    made_at: CallSite,
    capacity: Option<usize>,
    sent: u64,
    retained: u64,
    senders: u64,
    weak_senders: u64,
    sender: Option<String>,
    sent_at: CallSite,
    sent_last: Option<NumberedCall>,
    receivers: Vec<ReceiverSnapshot>,
}

/// A receiver as it is at one moment.
///
/// # Examples
///
/// A receiver that waits:
///
/// ```
/// use std::pin::pin;
/// use std::task::{Context, Waker};
/// use yovanelum::{ChannelSnapshot, broadcast};
///
/// let (prices, mut chart) = broadcast::channel::<u32>(2);
/// let mut recv = pin!(chart.recv());
/// assert!(recv.as_mut().poll(&mut Context::from_waker(Waker::noop())).is_pending());
///
/// let channel = ChannelSnapshot::of(&prices);
/// assert_eq!(channel.receivers()[0].waits_in(), Some("recv"));
/// ```
#[derive(Clone, Debug, PartialEq, Eq)]
pub struct ReceiverSnapshot {
    name: String,
    made_at: CallSite,
    unread: u64,
    lag: u64,
    lost: u64,
    received_at: CallSite,
    received: Option<NumberedCall>,
    // The call that waits, and the one that was woken and has not gone on since.
    waits: Option<Waits>,
    woken: Option<Waits>,
}

/// A recorded call, as a dump has it too.
#[derive(Clone, Copy, Debug, PartialEq, Eq)]
struct NumberedCall {
    stamp: u64,
    /// Milliseconds since 1970, if it is known when it was called.
    wall: Option<u64>,
}

impl NumberedCall {
    /// Returns the call with this stamp, if it isn't 0, which that of one that isn't recorded is.
    fn new(stamp: u64) -> Option<NumberedCall> {
        (stamp > 0).then_some(NumberedCall { stamp, wall: None })
    }

    /// Adds when these calls of a channel with this state were made, at this time of the recorder's
    /// clock.
    fn add_times(mut calls: Vec<&mut NumberedCall>, state: &mut ChannelState, clock: u64) {
        let stamps: Vec<_> = calls.iter().map(|call| call.stamp).listed();
        for (call, wall) in calls.iter_mut().zip(&state.when(&stamps, clock)) {
            call.wall = *wall;
        }
    }

    fn time(self) -> Option<SystemTime> {
        UNIX_EPOCH.checked_add(Duration::from_millis(self.wall?))
    }
}

/// A call in which a receiver waits, or waited until it was woken.
#[derive(Clone, Debug, PartialEq, Eq)]
struct Waits {
    call: &'static str,
    called_at: CallSite,
    since: Option<u64>,
    waited: Option<Duration>,
}

/// Returns what is on all channels of the process now, in the order of their creation.
///
/// These are the channels of which a sender, weak sender or receiver is alive, whether a recorder
/// records them or not.
///
/// # Examples
///
/// A gauge for each receiver of a service:
///
/// ```
/// use yovanelum::{Recorder, broadcast};
///
/// let (prices, chart) = broadcast::channel(16);
/// Recorder::off().name(&prices, "prices").name(&chart, "chart");
/// prices.send(101).unwrap();
///
/// let mut lines = vec![];
/// for channel in yovanelum::snapshot().channels() {
///     for receiver in channel.receivers() {
///         let labels = format!(r#"channel="{}",receiver="{}""#, channel.name(), receiver.name());
///         lines.push(format!("unread{{{labels}}} {}", receiver.unread()));
///     }
/// }
/// assert_eq!(lines, [r#"unread{channel="prices",receiver="chart"} 1"#]);
/// ```
pub fn snapshot() -> Snapshot {
    Snapshot::of_all(all_channels(None))
}

impl Recorder {
    /// Returns what is on the channels of this recorder now, in the order of their creation.
    ///
    /// These are the channels that belong to it and of which a sender, weak sender or receiver is
    /// alive. No call is recorded for it.
    ///
    /// # Examples
    ///
    /// ```
    /// use yovanelum::{Recorder, broadcast};
    ///
    /// let recorder = Recorder::new();
    /// let _entered = recorder.enter();
    /// let (prices, chart) = broadcast::channel(2);
    /// recorder.name(&prices, "prices").name(&chart, "chart");
    /// prices.send(101).unwrap();
    /// let snapshot = recorder.snapshot();
    /// assert_eq!(snapshot.channels()[0].name(), "prices");
    /// assert_eq!(snapshot.channels()[0].receivers()[0].unread(), 1);
    /// ```
    pub fn snapshot(&self) -> Snapshot {
        Snapshot::of_all(all_channels(Some(&self.0)))
    }
}

impl Snapshot {
    fn of_all(channels: Vec<RegisteredChannel>) -> Snapshot {
        let channels = channels.iter().map(|(channel, recorder)| {
            let clock = recorder.as_ref().map(|recorder| recorder.last());
            ChannelSnapshot::new(&mut lock(channel), clock)
        });
        Snapshot {
            channels: channels.listed(),
        }
    }

    /// Returns the channels, in the order of their creation.
    pub fn channels(&self) -> &[ChannelSnapshot] {
        &self.channels
    }
}

impl ChannelSnapshot {
    /// Returns what is on the channel of this sender, weak sender or receiver now.
    ///
    /// It is no method of senders and receivers, so it never has the name of one of tokio's. No
    /// call is recorded for it.
    pub fn of<H: Handle>(handle: &H) -> ChannelSnapshot {
        let channel = &handle.recorded().channel;
        let clock = channel.recorder.0.as_ref().map(|recorder| recorder.last());
        ChannelSnapshot::new(&mut lock(&channel.state), clock)
    }

    /// Returns what is on a channel with this state, at this time of its recorder's clock.
    fn new(state: &mut ChannelState, clock: Option<u64>) -> ChannelSnapshot {
        let mut live: Vec<LiveReceiver> = state.receivers.iter().copied().listed();
        // Not by the number, which may have been that of another one before.
        sort_by_key(&mut live, |receiver| state.core.nth(receiver.number));
        let retained = state.core.capacity().map_or(1, |_| state.core.queued());
        let mut receivers = Vec::with_capacity(live.len());
        let seen = live
            .into_iter()
            .map(|receiver| (receiver.number, ReceiverSnapshot::new(receiver, state)));
        receivers.push_all(seen);
        ReceiverSnapshot::add_waits(&mut receivers, state);
        let mut sent_last = NumberedCall::new(state.sent_stamp());
        if let (Some(clock), true) = (clock, state.knows_times()) {
            let received = receivers.iter_mut();
            let mut calls = received.filter_map(|(_, it)| it.received.as_mut()).listed();
            calls.push_all(&mut sent_last);
            NumberedCall::add_times(calls, state, clock);
        }
        let mut described = Vec::with_capacity(receivers.len());
        described.push_all(receivers.into_iter().map(|(_, receiver)| receiver));
        ChannelSnapshot {
            name: state.name_or_place(),
            made_at: state.made_at,
            capacity: state.core.capacity(),
            sent: state.sent_count(),
            retained,
            senders: state.core.senders(),
            weak_senders: state.core.weak_senders(),
            sender: state.last_send.name().map(str::to_string),
            sent_at: state.last_send.called_at(),
            sent_last,
            receivers: described,
        }
    }

    /// Returns the name of the channel, or `channel at src/main.rs:9` with the place of its
    /// creation if it has none.
    pub fn name(&self) -> &str {
        &self.name
    }

    /// Returns where the channel was created.
    pub fn made_at(&self) -> Option<&'static Location<'static>> {
        self.made_at
    }

    /// Returns the capacity that a broadcast channel was created with, and `None` for a watch
    /// channel.
    pub fn capacity(&self) -> Option<usize> {
        self.capacity
    }

    /// Returns how many values were sent on the channel. The one that a watch channel was created
    /// with is not among them.
    pub fn sent(&self) -> u64 {
        self.sent
    }

    /// Returns how many values the channel retains for some receiver, as
    /// [`Sender::len`](crate::broadcast::Sender::len) does. A watch channel always retains its
    /// value.
    pub fn retained(&self) -> u64 {
        self.retained
    }

    /// Returns how many senders are alive.
    pub fn senders(&self) -> u64 {
        self.senders
    }

    /// Returns how many weak senders are alive.
    pub fn weak_senders(&self) -> u64 {
        self.weak_senders
    }

    /// Returns the name of the thread, task or [`named`](crate::named) future that sent last, if
    /// anything was sent.
    pub fn sender(&self) -> Option<&str> {
        self.sender.as_deref()
    }

    /// Returns where that send was called.
    pub fn sent_at(&self) -> Option<&'static Location<'static>> {
        self.sent_at
    }

    /// Returns the stamp of that send in the journal of the channel's recorder, if it is recorded.
    /// A dump of a flight recorder has this stamp too, and `yovanelum why` tells the call as
    /// `67108867 in snapshots`.
    ///
    /// # Examples
    ///
    /// The line of a call in a journal begins with its stamp:
    ///
    /// ```
    /// use yovanelum::{ChannelSnapshot, Recorder, broadcast};
    ///
    /// let recorder = Recorder::flight(100);
    /// let _entered = recorder.enter();
    /// let (prices, _chart) = broadcast::channel(2);
    /// prices.send(101).unwrap();
    /// let stamp = ChannelSnapshot::of(&prices).sent_call().unwrap();
    /// let send = format!("\n{stamp} 0 0 send 0 0 = sent 1\n");
    /// assert!(recorder.journal().unwrap().contains(&send));
    /// ```
    pub fn sent_call(&self) -> Option<u64> {
        Some(self.sent_last?.stamp)
    }

    /// Returns when that send was called, if a flight recorder knows it. A dump says the same.
    ///
    /// The recorder looks at the clock at one call of many, so it is the time between two others
    /// that their stamps tell.
    pub fn sent_time(&self) -> Option<SystemTime> {
        self.sent_last?.time()
    }

    /// Returns the receivers that are alive, in the order of their creation.
    pub fn receivers(&self) -> &[ReceiverSnapshot] {
        &self.receivers
    }
}

impl ReceiverSnapshot {
    /// Returns what is noted of a receiver, and what its channel knows of it. Its calls that wait
    /// are added later.
    fn new(receiver: LiveReceiver, state: &mut ChannelState) -> ReceiverSnapshot {
        let unread = state.unread(receiver.number);
        let capacity = state.core.capacity();
        let retained = capacity.map(|capacity| capacity.next_power_of_two() as u64);
        ReceiverSnapshot {
            name: state.handle_name(Kind::Receiver, receiver.number),
            made_at: receiver.made_at,
            unread,
            lag: retained.map_or(0, |retained| unread.saturating_sub(retained)),
            lost: receiver.lost,
            received_at: receiver.received_at,
            received: NumberedCall::new(receiver.received_stamp),
            waits: None,
            woken: None,
        }
    }

    /// Adds the calls that wait to their receivers, which are in the order of their creation, and
    /// those that were woken. Whether one waits is what the proved list says.
    fn add_waits(receivers: &mut [(u32, ReceiverSnapshot)], state: &ChannelState) {
        let mut calls = state.who_waits();
        calls.keep(|call| matches!(call.wait.awaited, Awaited::Value));
        for call in &calls {
            let nth = state.core.nth(call.wait.handle);
            let index = receivers.binary_search_by_key(&nth, |(number, _)| state.core.nth(*number));
            let Ok(index) = index else {
                continue;
            };
            let receiver = &mut receivers[index].1;
            let noted = match call.state {
                WaitState::Waits => &mut receiver.waits,
                WaitState::Woken => &mut receiver.woken,
                WaitState::Held | WaitState::Blocks => continue,
            };
            *noted = Some(Waits::new(call, state.made_by.is_some()));
        }
    }

    /// Returns the name of the receiver, or `receiver 1` with its number in the channel if it has
    /// none.
    pub fn name(&self) -> &str {
        &self.name
    }

    /// Returns where the receiver was created.
    pub fn made_at(&self) -> Option<&'static Location<'static>> {
        self.made_at
    }

    /// Returns how many values the receiver has yet to receive, those that were overwritten
    /// included. Of a watch channel, it is 1 if the receiver hasn't seen the value.
    pub fn unread(&self) -> u64 {
        self.unread
    }

    /// Returns how many of these were overwritten: its next receive returns `Lagged` with this
    /// number, if it isn't 0.
    pub fn lag(&self) -> u64 {
        self.lag
    }

    /// Returns how many values the receiver has lost since it was created: the sum of what its
    /// `Lagged` said.
    pub fn lost(&self) -> u64 {
        self.lost
    }

    /// Returns where the call was made by which the receiver last received a value, if it has
    /// received one.
    ///
    /// Of a watch channel, that is the last `borrow_and_update`, `changed` or `wait_for`.
    pub fn received_at(&self) -> Option<&'static Location<'static>> {
        self.received_at
    }

    /// Returns the stamp of that call in the journal of the channel's recorder, if it is recorded.
    /// A dump of a flight recorder has this stamp too, and `yovanelum why` tells the call as
    /// `67108867 in snapshots`.
    pub fn received_call(&self) -> Option<u64> {
        Some(self.received?.stamp)
    }

    /// Returns when that call was made, if a flight recorder knows it. A dump says the same.
    ///
    /// The recorder looks at the clock at one call of many, so it is the time between two others
    /// that their stamps tell.
    pub fn received_time(&self) -> Option<SystemTime> {
        self.received?.time()
    }

    /// Returns the method in which the receiver waits for a value, such as `recv`, if it waits: the
    /// channel as it is has nothing for it. Once a send or the drop of the last sender wakes it, it
    /// waits no longer, and [`woken_in`](ReceiverSnapshot::woken_in) has the method.
    pub fn waits_in(&self) -> Option<&'static str> {
        self.waits.as_ref().map(|waits| waits.call)
    }

    /// Returns where that method was called.
    pub fn waits_at(&self) -> Option<&'static Location<'static>> {
        self.waits.as_ref()?.called_at
    }

    /// Returns the recorder's clock when the receiver began to wait: the entries with stamps up to
    /// this were recorded before. It is `None` if the channel belongs to no recorder.
    pub fn waits_since(&self) -> Option<u64> {
        self.waits.as_ref()?.since
    }

    /// Returns for how long the receiver has waited. It is `None` on a platform without a clock.
    pub fn waits_for(&self) -> Option<Duration> {
        self.waits.as_ref()?.waited
    }

    /// Returns the method, such as `recv`, in which the receiver waited until it was woken, if it
    /// has not gone on since.
    ///
    /// That lasts until its task is polled or its thread runs. Where it doesn't end, nobody polls
    /// that task: it is forgotten, or what polls it is blocked.
    ///
    /// # Examples
    ///
    /// ```
    /// use std::pin::pin;
    /// use std::task::{Context, Waker};
    /// use yovanelum::{ChannelSnapshot, broadcast};
    ///
    /// let (prices, mut chart) = broadcast::channel(2);
    /// let mut recv = pin!(chart.recv());
    /// assert!(recv.as_mut().poll(&mut Context::from_waker(Waker::noop())).is_pending());
    /// prices.send(101).unwrap();
    ///
    /// let channel = ChannelSnapshot::of(&prices);
    /// let chart = &channel.receivers()[0];
    /// assert_eq!((chart.waits_in(), chart.woken_in(), chart.unread()), (None, Some("recv"), 1));
    /// ```
    pub fn woken_in(&self) -> Option<&'static str> {
        self.woken.as_ref().map(|woken| woken.call)
    }

    /// Returns where that method was called.
    pub fn woken_at(&self) -> Option<&'static Location<'static>> {
        self.woken.as_ref()?.called_at
    }
}

impl Waits {
    fn new(call: &WaitNow, is_of_recorder: bool) -> Waits {
        let wait = &call.wait;
        Waits {
            call: wait.method.name,
            called_at: wait.method.called_at,
            since: is_of_recorder.then_some(wait.since),
            waited: wait.began.map(|began| began.elapsed()),
        }
    }
}
