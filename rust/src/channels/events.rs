//! Events of channels, for closures that somebody has set: a receiver lags, or a channel closes.
//! Channels make them, and a recorder keeps closures of its own.

mod close;
mod lag;

pub use close::Close;
pub use lag::Lag;

use crate::channels::channel::{CallSite, ChannelState};
use crate::channels::lock::lock;
use crate::channels::recorder::{DumpRequest, HeldTexts, RecordedBy};
use std::fmt;
use std::mem;
use std::panic::{self, AssertUnwindSafe};
use std::sync::atomic::{AtomicBool, Ordering};
use std::sync::{Arc, Mutex};
use std::thread;

/// A closure that is called with an event.
type Hook<E> = Arc<dyn Fn(&E) + Send + Sync>;

/// The closures that are called with events: those of a recorder, or those of the process.
pub(crate) struct Hooks {
    lag: Mutex<Option<Hook<Lag>>>,
    close: Mutex<Option<Hook<Close>>>,
}

static PROCESS: Hooks = Hooks::new();

/// Whether a closure for lags was ever set in this process. While there is none, a lag, which a
/// receiver that falls behind may have at each call, looks for none.
static ANY_FOR_LAGS: AtomicBool = AtomicBool::new(false);

/// The same for closures that are called when a channel closes, as each one does.
static ANY_FOR_CLOSES: AtomicBool = AtomicBool::new(false);

impl Hooks {
    pub(crate) const fn new() -> Hooks {
        Hooks {
            lag: Mutex::new(None),
            close: Mutex::new(None),
        }
    }

    pub(crate) fn on_lag(&self, told: impl Fn(&Lag) + Send + Sync + 'static) {
        ANY_FOR_LAGS.store(true, Ordering::Relaxed);
        let before = lock(&self.lag).replace(Arc::new(told));
        // This runs user code, so nothing is locked here.
        drop(before);
    }

    pub(crate) fn on_close(&self, told: impl Fn(&Close) + Send + Sync + 'static) {
        ANY_FOR_CLOSES.store(true, Ordering::Relaxed);
        let before = lock(&self.close).replace(Arc::new(told));
        drop(before);
    }
}

/// Calls a closure each time a receiver lags, on any channel that no recorder records.
///
/// It is for a service: a receive that returns `Lagged(17)` says neither which receiver it was, nor
/// who sent what it lost. The [`Lag`] says so. The closure is called by the receive that returns
/// `Lagged`, before it returns. It is called for a recorded channel too, if the recorder has no
/// closure of its own ([`Recorder::on_lag`](crate::Recorder::on_lag)).
///
/// It is set for the process. A closure that is set later replaces it. There is no lock of this
/// crate while it runs, so it may use any channel, also this one. A panic in it is one of the
/// receive, which has then counted the values as lost.
///
/// # Examples
///
/// ```
/// use yovanelum::{Recorder, broadcast};
///
/// yovanelum::on_lag(|lag| eprintln!("warning: {lag}"));
///
/// let (prices, mut chart) = broadcast::channel(2);
/// Recorder::off().name(&prices, "prices").name(&chart, "chart");
/// for price in [101, 102, 103] {
///     prices.send(price).unwrap();
/// }
/// // Writes "warning: `chart` lost 1 value of `prices` (capacity 2), 1 in all, and has 2 to receive; ..".
/// assert!(chart.try_recv().is_err());
/// ```
pub fn on_lag(told: impl Fn(&Lag) + Send + Sync + 'static) {
    PROCESS.on_lag(told);
}

/// Calls a closure each time the last sender of a channel is dropped, on any channel that no
/// recorder records.
///
/// Receivers still receive what the channel retains, and then find it closed. The closure is called
/// by the drop, once those who wait are woken. It is called for a recorded channel too, if the
/// recorder has no closure of its own ([`Recorder::on_close`](crate::Recorder::on_close)).
///
/// What [`on_lag`] says of the closure is so here too. A panic in it is one of the drop. If the
/// thread panics already, it is dropped.
///
/// # Examples
///
/// ```
/// use std::sync::Mutex;
/// use yovanelum::{Recorder, watch};
///
/// static CLOSED: Mutex<Vec<String>> = Mutex::new(vec![]);
/// yovanelum::on_close(|close| CLOSED.lock().unwrap().push(close.channel().to_string()));
///
/// let (config, _server) = watch::channel("v1");
/// Recorder::off().name(&config, "config");
/// drop(config);
/// assert_eq!(*CLOSED.lock().unwrap(), ["config"]);
/// ```
pub fn on_close(told: impl Fn(&Close) + Send + Sync + 'static) {
    PROCESS.on_close(told);
}

/// An event with the closure that is called with it.
enum ToldEvent {
    Lag(Hook<Lag>, Lag),
    Close(Hook<Close>, Close),
}

impl ToldEvent {
    fn tell(&self) {
        match self {
            ToldEvent::Lag(hook, lag) => hook(lag),
            ToldEvent::Close(hook, close) => hook(close),
        }
    }
}

/// An event of a call, if somebody asked for it. Whoever makes the call drops this while nothing is
/// locked: then the closure is called, and the dump is begun.
#[derive(Default)]
pub(crate) struct Event(EventAction);

/// What is done at an event once nothing is locked.
#[derive(Default)]
enum EventAction {
    #[default]
    Nothing,
    // What the recorder holds may be dropped, which runs user code.
    Release(HeldTexts),
    Tell(Box<Told>),
}

/// What an event calls for. What the recorder holds may be dropped with it.
struct Told {
    event: Option<ToldEvent>,
    held: Option<HeldTexts>,
    dump: Option<Box<DumpRequest>>,
}

impl Event {
    /// A lag on a channel of this recorder.
    pub(crate) fn lag(
        recorder: &RecordedBy,
        dump: Option<Box<DumpRequest>>,
        lag: impl FnOnce() -> Lag,
    ) -> Event {
        if dump.is_none() && !ANY_FOR_LAGS.load(Ordering::Relaxed) {
            return Event::default();
        }
        let find = |hooks: &Hooks| lock(&hooks.lag).clone();
        Event::of(recorder, dump, find, |hook| ToldEvent::Lag(hook, lag()))
    }

    /// The drop of the last sender of a channel of this recorder.
    pub(crate) fn close(
        recorder: &RecordedBy,
        dump: Option<Box<DumpRequest>>,
        close: impl FnOnce() -> Close,
    ) -> Event {
        if dump.is_none() && !ANY_FOR_CLOSES.load(Ordering::Relaxed) {
            return Event::default();
        }
        let find = |hooks: &Hooks| lock(&hooks.close).clone();
        Event::of(recorder, dump, find, |hook| ToldEvent::Close(hook, close()))
    }

    fn of<E: ?Sized>(
        recorder: &RecordedBy,
        dump: Option<Box<DumpRequest>>,
        find: impl Fn(&Hooks) -> Option<Arc<E>>,
        told: impl FnOnce(Arc<E>) -> ToldEvent,
    ) -> Event {
        let held = recorder.held();
        let own = held.as_ref().and_then(|held| find(held.hooks()));
        let event = own.or_else(|| find(&PROCESS)).map(told);
        if event.is_some() || dump.is_some() {
            return Event(EventAction::Tell(Box::new(Told { event, held, dump })));
        }
        Event(held.map_or(EventAction::Nothing, EventAction::Release))
    }
}

impl Drop for Event {
    #[inline]
    fn drop(&mut self) {
        if !matches!(self.0, EventAction::Nothing) {
            end(mem::take(&mut self.0));
        }
    }
}

/// Does what an event calls for.
#[cold]
#[inline(never)]
fn end(action: EventAction) {
    match action {
        EventAction::Nothing => {}
        EventAction::Release(held) => drop(held),
        EventAction::Tell(told) => tell(told),
    }
}

/// Calls the closure. Its panic goes on, but within another panic, where the process would end.
// It gets the box, since what is in it would else be moved where the event is dropped.
#[allow(clippy::boxed_local)]
fn tell(told: Box<Told>) {
    let Told { event, held, dump } = *told;
    if let Some(dump) = dump {
        dump.begin();
    }
    let called = panic::catch_unwind(AssertUnwindSafe(|| {
        if let Some(event) = &event {
            event.tell();
        }
    }));
    drop((event, held));
    if let Err(panicked) = called {
        if !thread::panicking() {
            panic::resume_unwind(panicked);
        }
    }
}

/// A channel, as an event names it.
#[derive(Clone, Debug, PartialEq, Eq)]
struct ChannelOf {
    name: String,
    made_at: CallSite,
    capacity: Option<usize>,
    sender: Option<String>,
    sent_at: CallSite,
}

impl ChannelOf {
    fn new(state: &ChannelState) -> ChannelOf {
        ChannelOf {
            name: state.name_or_place(),
            made_at: state.made_at,
            capacity: state.core.capacity(),
            sender: state.last_send.name().map(str::to_string),
            sent_at: state.last_send.called_at(),
        }
    }

    /// Formats who sent last, and where.
    fn fmt_sender(&self, f: &mut fmt::Formatter<'_>) -> fmt::Result {
        match (&self.sender, self.sent_at) {
            (Some(sender), Some(at)) => {
                let (file, line) = (at.file(), at.line());
                write!(f, "; the last send was by {sender} at {file}:{line}")
            }
            _ => write!(f, "; nothing was sent"),
        }
    }
}

/// Formats a count of values.
pub(crate) fn values(count: u64) -> String {
    match count {
        1 => "1 value".to_string(),
        _ => format!("{count} values"),
    }
}
