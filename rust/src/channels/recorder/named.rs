//! Names of channels, senders and receivers, and texts of values.

use super::{Handle, Recorder};
use crate::channels::channel::RecordedChannel;
use crate::channels::handle::Kind;
use crate::channels::lock::lock;
use std::sync::Arc;

impl Recorder {
    /// Names a receiver, or the channel of a sender, and replaces an earlier name. Returns the
    /// recorder, for the next call.
    ///
    /// A receiver has a name of its own. The channel has that of its senders, weak senders
    /// included, since a program knows a channel by what it sends on.
    /// [`name_channel`](Recorder::name_channel) names the channel of a receiver, and
    /// [`name_handle`](Recorder::name_handle) one of several senders.
    ///
    /// The page shows the names instead of the journal's numbers, and so does what a failing test
    /// prints.
    ///
    /// # Panics
    ///
    /// Panics if the channel belongs to another recorder, or to none. A recorder that is off
    /// accepts those that belong to none.
    ///
    /// # Examples
    ///
    /// ```
    /// use yovanelum::{Recorder, broadcast, watch};
    ///
    /// let recorder = Recorder::new();
    /// let _entered = recorder.enter();
    /// let (prices, chart) = broadcast::channel::<u32>(2);
    /// let (state, _rx) = watch::channel("open");
    /// recorder.name(&prices, "prices").name(&chart, "chart").name(&state, "state of the exchange");
    /// let names = recorder.names();
    /// assert!(names.contains(r#""channels": {"0": "prices", "1": "state of the exchange"}"#));
    /// assert!(names.contains(r#""handles": {"0": {"1": "chart"}}"#));
    /// ```
    #[track_caller]
    pub fn name<H: Handle>(&self, handle: &H, name: &str) -> &Recorder {
        match handle.recorded().kind {
            Kind::Receiver => self.name_handle(handle, name),
            Kind::Sender | Kind::WeakSender => self.name_channel(handle, name),
        }
    }

    /// Names the channel of this sender or receiver, and replaces an earlier name. Returns the
    /// recorder, for the next call.
    ///
    /// # Panics
    ///
    /// As [`name`](Recorder::name).
    ///
    /// # Examples
    ///
    /// A test that gets a receiver from the code under test:
    ///
    /// ```
    /// use yovanelum::{Recorder, watch};
    ///
    /// let recorder = Recorder::new();
    /// let _entered = recorder.enter();
    /// let (_state, rx) = watch::channel("open");
    /// recorder.name_channel(&rx, "state");
    /// assert!(recorder.names().contains(r#""channels": {"0": "state"}"#));
    /// ```
    #[track_caller]
    pub fn name_channel<H: Handle>(&self, handle: &H, name: &str) -> &Recorder {
        let channel = self.expect_own(handle.recorded().channel);
        lock(&channel.state).seldom_mut().name = Some(name.to_string());
        self
    }

    /// Names this sender, weak sender or receiver, and replaces an earlier name. Returns the
    /// recorder, for the next call.
    ///
    /// The name is that of the one handle, and not of its clones.
    ///
    /// # Panics
    ///
    /// As [`name`](Recorder::name).
    ///
    /// # Examples
    ///
    /// Two senders of one channel:
    ///
    /// ```
    /// use yovanelum::{Recorder, broadcast};
    ///
    /// let recorder = Recorder::new();
    /// let _entered = recorder.enter();
    /// let (prices, _chart) = broadcast::channel::<u32>(2);
    /// let backup = prices.clone();
    /// recorder.name_handle(&prices, "exchange").name_handle(&backup, "backup");
    /// assert!(recorder.names().contains(r#""handles": {"0": {"0": "exchange", "2": "backup"}}"#));
    /// ```
    #[track_caller]
    pub fn name_handle<H: Handle>(&self, handle: &H, name: &str) -> &Recorder {
        let handle = handle.recorded();
        let channel = self.expect_own(handle.channel);
        lock(&channel.state).name_handle(handle.number, name);
        self
    }

    /// Records a text of each value that is sent on the channel from now on. Returns the recorder,
    /// for the next call.
    ///
    /// In the journal values are numbers: 0, 1, 2, … in the order in which they were sent on the
    /// channel, and on a watch channel 0 is the value that it was created with. The texts show what
    /// the values were, also after they have been dropped. The first value of a watch channel has
    /// its text too, if no other was sent before this call. If a channel has a function already,
    /// the new one is not used.
    ///
    /// A text of more than 4096 bytes is cut, unless [`cut_texts_at`](Recorder::cut_texts_at) says
    /// otherwise.
    ///
    /// The recorder holds the function until the channel is dropped, or the recorder with its
    /// clones and guards. So a sender that the function holds keeps the channel open until then, as
    /// each sender that is alive does. A [`WeakSender`](crate::broadcast::WeakSender) does not.
    ///
    /// The function runs before the channel is locked, and a panic in it is one of the call that
    /// sends. Only for a value that is in a watch channel already (the first one, or one that a
    /// closure has changed) it runs while that value is locked. There it must neither look at the
    /// value of that channel nor send on it.
    ///
    /// # Panics
    ///
    /// As [`name`](Recorder::name). Panics if the function panics for the first value of a watch
    /// channel, or waits for the lock of that value by a send. The channel then has no function.
    ///
    /// # Examples
    ///
    /// ```
    /// use yovanelum::{Recorder, broadcast};
    ///
    /// let recorder = Recorder::new();
    /// let _entered = recorder.enter();
    /// let (prices, _chart) = broadcast::channel(2);
    /// recorder.show(&prices, |(share, price)| format!("{share} {price} EUR"));
    /// prices.send(("ACME", 101)).unwrap();
    /// prices.send(("ACME", 102)).unwrap();
    /// assert!(recorder.names().contains(r#"{"0": "ACME 101 EUR", "1": "ACME 102 EUR"}"#));
    /// ```
    #[track_caller]
    pub fn show<H: Handle>(
        &self,
        handle: &H,
        text: impl Fn(&H::Value) -> String + Send + Sync + 'static,
    ) -> &Recorder {
        self.expect_own(handle.recorded().channel);
        handle.set_text_of(self.1.hold(text));
        self
    }

    /// Cuts the texts of values that have more than this many bytes, from now on. Returns the
    /// recorder, for the next call.
    ///
    /// Unless this is called, a text has 4096 bytes at most. Of a longer one, the names have its
    /// beginning, and how long it is. The texts of all values are in the names and in the page,
    /// which would not be opened if it was too large.
    ///
    /// # Examples
    ///
    /// ```
    /// use yovanelum::{Recorder, broadcast};
    ///
    /// let recorder = Recorder::new();
    /// let _entered = recorder.enter();
    /// let (files, _reader) = broadcast::channel(2);
    /// recorder.cut_texts_at(8).show(&files, |file: &String| file.clone());
    /// files.send("a line of a file".to_string()).unwrap();
    /// files.send("a line".to_string()).unwrap();
    /// assert!(recorder.names().contains(r#"{"0": "a line o… (16 bytes)", "1": "a line"}"#));
    /// ```
    pub fn cut_texts_at(&self, bytes: usize) -> &Recorder {
        self.1.cut_at(bytes);
        self
    }

    /// Returns the channel. Panics if it belongs to another recorder, or to none: its names aren't
    /// beside the journal of this one.
    #[track_caller]
    fn expect_own<'a>(&self, channel: &'a RecordedChannel) -> &'a RecordedChannel {
        let belongs_to = match &channel.recorder.0 {
            Some(recorder) if Arc::ptr_eq(recorder, &self.0) => return channel,
            Some(_) => "another recorder",
            None if self.0.is_off => return channel,
            None => "no recorder",
        };
        panic!(
            "yovanelum: the channel belongs to {belongs_to}, so its calls aren't in the journal of this one: \
             enter this recorder before the channel is created"
        );
    }
}
