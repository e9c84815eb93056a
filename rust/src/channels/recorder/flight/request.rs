//! A dump that something calls for: what it is about, until a thread of its own writes it.

use super::super::noted_panic::NotedPanic;
use super::super::shared::Shared;
use super::WriteDump;
use super::dump::Dump;
use super::dumping::Trigger;
use crate::channels::channel::{ChannelState, KeptChannel};
use crate::channels::channel_lock::ChannelLock;
use crate::channels::events::values;
use crate::channels::handle::Kind;
use crate::channels::oneshot::{Sender, channel};
use std::io;
use std::panic::{self, AssertUnwindSafe};
use std::path::PathBuf;
use std::sync::Arc;
use std::sync::atomic::Ordering;
use std::thread;
use yovanelum_core::large_pages::without_giving_back;
use yovanelum_core::source::rw_law::NoMemory;
use yovanelum_record::clock::{Moment, now, wall};

/// What called for a journal of the last calls.
#[derive(Clone, Debug)]
pub(crate) struct Why {
    pub(crate) trigger: &'static str,
    pub(crate) reason: String,
    /// In milliseconds since 1970.
    pub(crate) at: Option<u64>,
}

/// A dump that is begun and has no thread yet.
pub(crate) struct DumpRequest {
    pub(crate) recorder: Begun,
    pub(crate) folder: PathBuf,
    pub(crate) keep: usize,
    pub(crate) why: Why,
    /// The last stamp that a call of it has, and when that was.
    pub(crate) last: u64,
    pub(crate) began: Option<Moment>,
    /// The channel that it is about, with its calls.
    pub(crate) own: Option<(Arc<ChannelLock<ChannelState>>, KeptChannel)>,
    pub(crate) panic: Option<NotedPanic>,
    told: Arc<Sender<io::Result<PathBuf>>>,
    write: WriteDump,
}

/// The recorder of a dump, and what called for it. Until this is dropped it gives no numbers of
/// actors away.
pub(crate) struct Begun(pub(crate) Arc<Shared>, Trigger);

impl Begun {
    fn new(recorder: &Arc<Shared>, trigger: Trigger) -> Begun {
        recorder.readers.fetch_add(1, Ordering::SeqCst);
        Begun(recorder.clone(), trigger)
    }
}

impl Drop for Begun {
    fn drop(&mut self) {
        self.0.readers.fetch_sub(1, Ordering::SeqCst);
        if let Some(flight) = &self.0.flight {
            flight.dumping.end(self.1);
        }
    }
}

impl Shared {
    /// Returns the dump that a lag calls for, of a channel whose lock is held. The receiver with
    /// this number has lost `lost` values.
    pub(crate) fn dump_on_lag(
        self: &Arc<Shared>,
        channel: &Arc<ChannelLock<ChannelState>>,
        state: &mut ChannelState,
        receiver: u32,
        lost: u64,
    ) -> Option<Box<DumpRequest>> {
        let dumping = &self.flight.as_ref()?.dumping;
        if !dumping.is_for_lag(lost) {
            return None;
        }
        let receiver = state.handle_name(Kind::Receiver, receiver);
        let (channel_name, lost) = (state.name_or_place(), values(lost));
        let reason = format!("`{receiver}` lost {lost} of `{channel_name}`");
        DumpRequest::about(Trigger::Lag, reason, self, (channel, state))
    }

    /// Returns the dump that the drop of the last sender calls for, of a channel whose lock is
    /// held.
    pub(crate) fn dump_on_close(
        self: &Arc<Shared>,
        channel: &Arc<ChannelLock<ChannelState>>,
        state: &mut ChannelState,
    ) -> Option<Box<DumpRequest>> {
        let (dumping, name) = (&self.flight.as_ref()?.dumping, state.seldom().name.clone()?);
        if !dumping.are(|settings| settings.closed.contains(&name)) {
            return None;
        }
        let reason = format!("`{name}` was closed");
        DumpRequest::about(Trigger::Close, reason, self, (channel, state))
    }
}

impl DumpRequest {
    /// Begins a dump, unless it is too soon, perhaps for the same place.
    fn new(
        recorder: &Arc<Shared>,
        trigger: Trigger,
        reason: String,
        place: Option<(String, u32)>,
    ) -> io::Result<(DumpRequest, Dump)> {
        let Some(flight) = &recorder.flight else {
            return Err(io::Error::other("this recorder is no flight recorder"));
        };
        let (folder, keep) = flight.dumping.begin(trigger, place, now())?;
        let (told, ended) = channel();
        let last = recorder.last();
        let request = DumpRequest {
            recorder: Begun::new(recorder, trigger),
            folder,
            keep,
            why: Why {
                trigger: trigger.word(),
                reason,
                at: wall(),
            },
            last,
            began: recorder.times.moment(last),
            own: None,
            panic: None,
            told: Arc::new(told),
            write: flight.write,
        };
        Ok((request, Dump(ended)))
    }

    /// Begins a dump that is about a channel, whose lock is held.
    fn about(
        trigger: Trigger,
        reason: String,
        recorder: &Arc<Shared>,
        (channel, state): (&Arc<ChannelLock<ChannelState>>, &mut ChannelState),
    ) -> Option<Box<DumpRequest>> {
        let (mut request, _) = DumpRequest::new(recorder, trigger, reason, None).ok()?;
        match state.kept(recorder.times) {
            Ok(kept) => request.own = kept.map(|kept| (channel.clone(), kept)),
            Err(NoMemory) => {
                request.end(Err(io::Error::other("no memory for the journal")));
                return None;
            }
        }
        Some(Box::new(request))
    }

    /// Begins a dump that somebody asks for.
    pub(crate) fn asked(recorder: &Arc<Shared>, reason: &str) -> Dump {
        match DumpRequest::new(recorder, Trigger::Call, reason.to_string(), None) {
            Ok((request, dump)) => {
                request.begin();
                dump
            }
            Err(error) => {
                let (told, ended) = channel();
                told.send(Err(error));
                Dump(ended)
            }
        }
    }

    /// Begins a dump that a panic calls for, unless too many are being written, or one was begun a
    /// short time ago for a panic at the same place and the process doesn't end with this one.
    pub(crate) fn on_panic(
        recorder: &Arc<Shared>,
        panic: NotedPanic,
        ends_process: bool,
    ) -> Option<Dump> {
        let at = panic.location.as_ref().filter(|_| !ends_process);
        let at = at.map(|at| (at.file.clone(), at.line));
        let new = DumpRequest::new(recorder, Trigger::Panic, panic.in_words(), at);
        let (mut request, dump) = new.ok()?;
        request.panic = Some(panic);
        request.begin();
        Some(dump)
    }

    /// Writes the dump on a thread of its own. No lock of this crate is held.
    pub(crate) fn begin(mut self) {
        let (recorder, told) = (self.recorder.0.clone(), self.told.clone());
        let named = thread::Builder::new().name("yovanelum dump".to_string());
        let write = move || {
            let written = panic::catch_unwind(AssertUnwindSafe(|| (self.write)(&mut self)));
            self.end(written.unwrap_or_else(|_| Err(io::Error::other("it panicked"))));
        };
        let write: Box<dyn FnOnce() + Send> = Box::new(|| without_giving_back(write));
        let spawned = named.spawn(write);
        if let Err(error) = spawned {
            let error = io::Error::new(error.kind(), format!("no thread for it: {error}"));
            told.send(count(&recorder, Err(error)));
        }
    }

    /// Counts the dump, and tells whoever waits for it.
    fn end(self, written: io::Result<PathBuf>) {
        let DumpRequest { recorder, told, .. } = self;
        let written = count(&recorder.0, written);
        drop(recorder);
        told.send(written);
    }
}

/// Counts a dump, and says where it is written, or why it isn't.
fn count(recorder: &Shared, written: io::Result<PathBuf>) -> io::Result<PathBuf> {
    match (&recorder.flight, written) {
        (Some(flight), Ok(path)) => {
            flight.dumping.count_written();
            eprintln!("yovanelum: a dump is written: {}", path.display());
            Ok(path)
        }
        (Some(flight), Err(error)) => flight.dumping.fail(error),
        (None, written) => written,
    }
}
