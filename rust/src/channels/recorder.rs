//! Recorders. The channels of a recorder make one run, with one journal. Each channel asks here
//! whom it belongs to. What becomes of a run, its journal and its files, is of the harness.

mod automatic;
mod current;
mod events;
mod flight;
mod handle;
mod makers;
mod named;
mod noted_panic;
mod outside;
mod scope;
mod shared;
mod texts;
mod waiting;
mod waits_then;

pub(crate) use automatic::{
    ForTests, TestOfThread, error_is_written, give_to_tests, test_expected, test_of_this_thread,
};
pub use current::{Entered, Installed, follow_this_thread};
pub(crate) use current::{current_and_home, is_any_entered, is_entered};
pub use flight::{Dump, Dumps};
pub(crate) use flight::{DumpRequest, DumpSettings, Why};
pub use handle::{Handle, RecordedHandle};
pub(crate) use noted_panic::{MOST_BYTES, NotedPanic, PATIENCE, text_of};
pub(crate) use outside::{
    OfNone, REPLAY, TestCount, is_any_made, is_any_of_none, next_moment, note_channel, of_none,
    say_that_none_replays,
};
pub use scope::Scoped;
pub(crate) use shared::HeldTexts;
pub(crate) use shared::{RecordedBy, Shared};
pub use texts::TextOf;
pub use waiting::Waiting;
pub(crate) use waits_then::WaitThen;

use crate::channels::lock::lock;
use std::fmt;
use std::sync::Arc;
use std::sync::atomic::Ordering;
use texts::Texts;

/// Records the calls on the channels that belong to it, as one run.
///
/// A channel belongs to one recorder from its creation on, whichever thread uses it:
///
/// 1. to the recorder that is entered on the thread that creates the channel
///    ([`enter`](Recorder::enter), [`for_test`](Recorder::for_test), [`scope`](Recorder::scope),
///    [`on_thread_start`](Recorder::on_thread_start)),
/// 2. else to the one that is installed for the process ([`install`](Recorder::install)),
/// 3. else to none. Then nothing of it is recorded, and it needs no memory for entries. The same is
///    so under a recorder that is [`off`](Recorder::off).
///
/// The journal has an entry for each call: which channel, who called, what the call was and what it
/// returned. The drop of a sender or a receiver is a call too. The caller is a thread, or a future
/// that was wrapped by [`named`](crate::named). A call that waits is recorded when it completes. A
/// cancelled call isn't recorded. On one channel, entries are in the order of the calls. On several
/// channels they are if one call returned before the other began.
///
/// A recorder is a handle: its clones record the same run.
///
/// # Limits
///
/// Nothing fails at these limits. The first time that one is reached, a line on standard error
/// reports it.
///
/// - A run has 64 channels. When another one is created, the oldest channel whose senders and
///   receivers are all dropped leaves the run, with its entries. The channels after it move up by
///   one number. If 64 channels are alive, the new one is not recorded.
/// - When a channel has created 65,536 senders, weak senders and receivers and is to create another
///   one, its recording ends. The other channels are still recorded.
/// - When a channel has 1,048,576 entries, recording ends for all channels of the recorder. That of
///   a test ([`for_test`](Recorder::for_test)) goes on with the last calls of each channel, as a
///   [`flight`](Recorder::flight) recorder does.
/// - A thread or named future after the 64th is recorded under the number of the 64th. The number
///   of one that is gone is given to another, once no call in the run is by it.
///
/// Of tasks without a name ([`set_task_id`](crate::set_task_id)), 32 have a number of their own.
/// Those that come later are recorded under the name of their thread, and no line reports it.
///
/// # Examples
///
/// ```
/// use yovanelum::{Recorder, broadcast};
///
/// let recorder = Recorder::new();
/// let _entered = recorder.enter();
/// let (prices, mut chart) = broadcast::channel(2);
/// prices.send(101).unwrap();
/// assert_eq!(chart.try_recv(), Ok(101));
///
/// // Sender 0 sent value 0 to one receiver, and receiver 1 received value 0.
/// let journal = recorder.journal().unwrap();
/// assert!(journal.contains("send 0 0 = sent 1"));
/// assert!(journal.contains("try-recv 1 = value 0"));
/// ```
#[derive(Clone)]
pub struct Recorder(pub(crate) Arc<Shared>, Arc<Texts>);

impl Default for Recorder {
    fn default() -> Self {
        Recorder::new()
    }
}

impl fmt::Debug for Recorder {
    fn fmt(&self, f: &mut fmt::Formatter<'_>) -> fmt::Result {
        f.debug_struct("Recorder")
            .field("channels", &lock(&self.0.channels).len())
            .finish_non_exhaustive()
    }
}

impl Recorder {
    /// Creates a recorder without channels.
    ///
    /// It records nothing before it is entered by [`enter`](Recorder::enter) or installed by
    /// [`install`](Recorder::install), and a channel is created.
    ///
    /// # Examples
    ///
    /// ```
    /// use yovanelum::{Recorder, broadcast};
    ///
    /// let recorder = Recorder::new();
    /// broadcast::Sender::<u32>::new(4);
    /// assert!(recorder.is_empty());
    /// let entered = recorder.enter();
    /// broadcast::Sender::<u32>::new(4);
    /// assert!(!recorder.is_empty());
    /// ```
    pub fn new() -> Recorder {
        Recorder::with(Arc::new(Shared::new(false)))
    }

    /// Returns a handle of the recorder whose channels share this.
    pub(crate) fn with(shared: Arc<Shared>) -> Recorder {
        let texts = shared.texts();
        Recorder(shared, texts)
    }

    /// Creates a recorder that records nothing.
    ///
    /// A channel that is created while it is entered, or in a future of its
    /// [`scope`](Recorder::scope), belongs to no recorder, as if no recorder was there. It is for
    /// channels that have no part in what a test is about, and would only fill its journal.
    ///
    /// # Examples
    ///
    /// ```
    /// use yovanelum::{Recorder, broadcast, watch};
    ///
    /// let recorder = Recorder::for_test("each_price_arrives");
    /// let (prices, mut chart) = broadcast::channel(4);
    /// let off = Recorder::off().enter();
    /// let (progress, _bar) = watch::channel(0);
    /// drop(off);
    /// for price in [101, 102] {
    ///     prices.send(price).unwrap();
    ///     assert_eq!(chart.try_recv(), Ok(price));
    ///     progress.send_replace(price);
    /// }
    /// assert_eq!(recorder.len(), 4);
    /// assert!(Recorder::of(&progress).is_none());
    /// ```
    pub fn off() -> Recorder {
        Recorder::with(Arc::new(Shared::new(true)))
    }

    /// Returns the recorder to which the channel of this sender or receiver belongs, or `None` if
    /// it belongs to none and is not recorded.
    ///
    /// A channel belongs to its recorder also if it is not in its run, since
    /// [limits](Recorder#limits) were reached.
    ///
    /// # Examples
    ///
    /// ```
    /// use yovanelum::{Recorder, broadcast};
    ///
    /// let (orders, _mailer) = broadcast::channel::<u32>(2);
    /// assert!(Recorder::of(&orders).is_none());
    ///
    /// let recorder = Recorder::new();
    /// let _entered = recorder.enter();
    /// let (prices, _chart) = broadcast::channel(2);
    /// prices.send(101).unwrap();
    /// assert_eq!(Recorder::of(&prices).unwrap().len(), 1);
    /// ```
    pub fn of<H: Handle>(handle: &H) -> Option<Recorder> {
        handle
            .recorded()
            .channel
            .recorder
            .0
            .clone()
            .map(Recorder::with)
    }

    /// Ends the recording of questions, so that a loop that polls does not fill the journal.
    /// Returns the recorder, for the next call.
    ///
    /// Questions are `len`, `is_empty` and `receiver_count`, and on a watch channel also `borrow`,
    /// `has_changed` and `is_closed`. What they return does not change. Calls that wait, such as
    /// `closed`, are still recorded when they complete. This cannot be undone.
    ///
    /// # Examples
    ///
    /// ```
    /// use yovanelum::{Recorder, broadcast};
    ///
    /// let recorder = Recorder::new();
    /// let _entered = recorder.enter();
    /// let (bus, listener) = broadcast::channel::<u32>(4);
    /// assert_eq!(bus.receiver_count(), 1);
    /// assert_eq!(recorder.len(), 1);
    ///
    /// recorder.quiet_questions();
    /// assert_eq!(bus.receiver_count(), 1);
    /// assert!(listener.is_empty());
    /// assert_eq!(recorder.len(), 1);
    /// ```
    pub fn quiet_questions(&self) -> &Recorder {
        self.0.is_quiet.store(true, Ordering::Relaxed);
        self
    }
}
