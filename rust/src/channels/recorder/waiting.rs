//! The calls that wait, as a recorder lists them.

use crate::channels::backend::Actor;
use crate::channels::channel::{ChannelState, WaitNow};
use crate::channels::wait::Awaited;
use std::fmt;
use std::panic::Location;
use yovanelum_record::sidecar::Sidecar;
use yovanelum_record::unnamed::UnnamedChannel;

/// A call that waits, or was woken and has not gone on since, returned by
/// [`Recorder::waiting`](crate::Recorder::waiting).
///
/// # Examples
///
/// ```
/// use std::future::Future;
/// use std::pin::pin;
/// use std::task::{Context, Waker};
/// use yovanelum::{Recorder, Waiting, broadcast};
///
/// let recorder = Recorder::new();
/// let _entered = recorder.enter();
/// let (prices, mut chart) = broadcast::channel::<u32>(4);
/// recorder.name(&prices, "prices").name(&chart, "chart");
/// let mut recv = pin!(chart.recv());
/// assert!(recv.as_mut().poll(&mut Context::from_waker(Waker::noop())).is_pending());
///
/// let waiting: Vec<Waiting> = recorder.waiting();
/// assert_eq!((waiting[0].channel(), waiting[0].handle()), ("prices", "chart"));
/// assert_eq!((waiting[0].call(), waiting[0].since()), ("recv", 0));
/// ```
#[derive(Clone, Debug, PartialEq, Eq)]
pub struct Waiting {
    pub(crate) actor: String,
    channel: String,
    // The number of a channel that has no name.
    unnamed: Option<u64>,
    // Whether the channel is called as a report calls one without a name.
    is_by_place: bool,
    handle: String,
    call: &'static str,
    since: u64,
    location: Option<&'static Location<'static>>,
    is_woken: bool,
    // Whether it blocks for the lock of a watch's value.
    waits_for_lock: bool,
    // The look that holds that lock, if it is known: who took it, and where.
    held_by: Option<(String, Option<&'static Location<'static>>)>,
}

impl Waiting {
    /// Wraps a call of the channel with this number. `name` names actors.
    pub(crate) fn new(
        call: &WaitNow,
        number: u64,
        channel: &ChannelState,
        name: impl Fn(Actor) -> String,
    ) -> Waiting {
        let wait = &call.wait;
        let (waits_for_lock, look) = match wait.awaited {
            Awaited::Value | Awaited::NoReceiver => (false, None),
            Awaited::Lock(look) => (true, look),
        };
        Waiting {
            actor: name(wait.actor),
            channel: channel
                .seldom()
                .name
                .clone()
                .unwrap_or_else(|| format!("channel {number}")),
            unnamed: channel.seldom().name.is_none().then_some(number),
            is_by_place: false,
            handle: channel.handle_name(wait.kind, wait.handle),
            call: wait.method.name,
            since: wait.since,
            location: wait.method.called_at,
            is_woken: call.is_woken() == Some(true),
            waits_for_lock,
            held_by: look.map(|look| (name(look.actor), look.called_at)),
        }
    }

    /// Calls the channel as a report with these names does, if it has no name of its own.
    pub(crate) fn name_channel(&mut self, names: &Sidecar) {
        let Some(number) = self.unnamed else {
            return;
        };
        match names.channels.get(&number) {
            Some(name) => self.channel.clone_from(name),
            None => {
                self.channel = UnnamedChannel::of(names, number).short();
                self.is_by_place = true;
            }
        }
    }

    /// Returns the name of the thread, future or task that waits.
    pub fn actor(&self) -> &str {
        &self.actor
    }

    /// Returns the name of the channel, or `channel 0` with its number in the journal if it has
    /// none.
    pub fn channel(&self) -> &str {
        &self.channel
    }

    /// Returns the name of the sender or receiver, or `receiver 1` with its number in the journal
    /// if it has none.
    pub fn handle(&self) -> &str {
        &self.handle
    }

    /// Returns the name of the method, such as `recv`.
    pub fn call(&self) -> &'static str {
        self.call
    }

    /// Returns the recorder's clock when the call began to wait: the entries with stamps up to this
    /// were recorded before.
    pub fn since(&self) -> u64 {
        self.since
    }

    /// Whether the call was woken and has not gone on since. Then what it waited for has come: a
    /// value, or the end of the other side. Its task has yet to be polled, its thread to run, or
    /// nobody polls its future any more. (A `closed` may have to wait again, if a receiver was
    /// created since.)
    ///
    /// If this is `false`, the call would wait in the channel as it is, but for one that waits for
    /// the lock of a watch's value, or for its turn in a replay.
    ///
    /// # Examples
    ///
    /// ```
    /// use std::future::Future;
    /// use std::pin::pin;
    /// use std::task::{Context, Waker};
    /// use yovanelum::{Recorder, broadcast};
    ///
    /// let recorder = Recorder::new();
    /// let _entered = recorder.enter();
    /// let (prices, mut chart) = broadcast::channel(4);
    /// let mut recv = pin!(chart.recv());
    /// assert!(recv.as_mut().poll(&mut Context::from_waker(Waker::noop())).is_pending());
    /// assert!(!recorder.waiting()[0].is_woken());
    ///
    /// // The send wakes it. It is listed until somebody polls it, who gets the value.
    /// prices.send(101).unwrap();
    /// assert!(recorder.waiting()[0].is_woken());
    /// assert!(recorder.waiting()[0].to_string().ends_with(", which was woken and hasn't gone on since"));
    /// assert!(recv.as_mut().poll(&mut Context::from_waker(Waker::noop())).is_ready());
    /// assert!(recorder.waiting().is_empty());
    /// ```
    pub fn is_woken(&self) -> bool {
        self.is_woken
    }

    /// Returns who took the look for which the call waits, and where, if it waits for the lock of a
    /// watch's value and they are known.
    ///
    /// # Examples
    ///
    /// ```
    /// use std::thread;
    /// use yovanelum::{Recorder, watch};
    ///
    /// let recorder = Recorder::new();
    /// let _entered = recorder.enter();
    /// let (state, rx) = watch::channel("loading");
    /// let look = rx.borrow();
    /// let sender = thread::spawn(move || state.send("ready").unwrap());
    /// while recorder.waiting().is_empty() {
    ///     thread::yield_now();
    /// }
    /// let (_actor, location) = recorder.waiting()[0].held_by().unwrap();
    /// assert_eq!(location.unwrap().file(), file!());
    /// drop(look);
    /// sender.join().unwrap();
    /// ```
    pub fn held_by(&self) -> Option<(&str, Option<&'static Location<'static>>)> {
        let (actor, location) = self.held_by.as_ref()?;
        Some((actor, *location))
    }

    /// Returns where the method was called.
    ///
    /// It is `None` if that is not known. For a stream, it is where the stream was created.
    pub fn location(&self) -> Option<&'static Location<'static>> {
        self.location
    }
}

impl fmt::Display for Waiting {
    /// Formats it as in ``worker in `state.wait_for`, src/worker.rs:30``, or
    /// ``main in `state.send`, src/main.rs:9, for a look taken at src/main.rs:8 by main``. One that
    /// was woken ends with `, which was woken and hasn't gone on since`.
    fn fmt(&self, f: &mut fmt::Formatter<'_>) -> fmt::Result {
        let between = if self.is_by_place { ": " } else { "." };
        write!(
            f,
            "{} in `{}{between}{}`",
            self.actor, self.channel, self.call
        )?;
        if let Some(location) = self.location {
            write!(f, ", {}:{}", location.file(), location.line())?;
        }
        match &self.held_by {
            Some((actor, Some(location))) => {
                let (file, line) = (location.file(), location.line());
                write!(f, ", for a look taken at {file}:{line} by {actor}")
            }
            Some((actor, None)) => write!(f, ", for a look taken by {actor}"),
            None if self.waits_for_lock => write!(f, ", for the lock of the value"),
            None if self.is_woken => write!(f, ", which was woken and hasn't gone on since"),
            None => Ok(()),
        }
    }
}
