//! The run of a recorder at one moment: its journal, the names beside it, and the calls that wait.

use super::automatic;
use super::source_names;
use super::stacks::{self, Frame};
use super::test_run::TestRun;
use super::window_names;
use super::windows::{Calls, Most, Windows};
use crate::channels::backend::{Actor, Cut, CutFault};
use crate::channels::channel::{CallSites, ChannelState, KeptChannel, WaitNow};
use crate::channels::channel_lock::ChannelLock;
use crate::channels::lock::{lock, try_lock_for};
use crate::channels::recorder::{Shared, WaitThen, Waiting, Why};
use crate::channels::wait::{Awaited, Wait};
use crate::harness::program::Program;
use std::panic::Location;
use std::path::Path;
use std::sync::Arc;
use std::sync::atomic::{AtomicUsize, Ordering};
use std::time::Duration;
use std::{env, fs, io, ptr};
use yovanelum_core::lists::reserved;
use yovanelum_core::source::rw_law::NoMemory;
use yovanelum_record::by_text::TextMap;
use yovanelum_record::journal;
use yovanelum_record::listed::{IntoList, Keep, PushAll};
use yovanelum_record::numbered::NumberMap;
use yovanelum_record::sidecar::{HeldBy, Sidecar, SourceLocation, WaitingCall};
use yovanelum_record::sorting::sort_by_key;

/// Which channels a recorder has.
pub(super) const ITS_CHANNELS: &str = "those that are created on a thread that has entered it \
    (`Recorder::for_test`, `enter`), on the threads of a runtime (`on_thread_start`), in a future (`scope`), or anywhere while it is \
    installed (`install`)";

/// Why a recorder that is off has no journal.
const IS_OFF: &str = "this recorder is off, so it records nothing. `Recorder::new` and `Recorder::for_test` create one that records";

/// The channels of a run, by their numbers, and what they share. Others that join the run later are
/// no part of it.
pub(crate) struct RunSoFar<'a> {
    shared: &'a Shared,
    channels: Vec<Arc<ChannelLock<ChannelState>>>,
    // How many channels are left out, since they are locked.
    locked: u64,
    _reading: Reading<'a>,
}

/// While this is alive, numbers of actors aren't given away: a channel of the run may leave its
/// recorder, and its calls have names all the same.
struct Reading<'a>(&'a AtomicUsize);

impl<'a> Reading<'a> {
    fn new(readers: &'a AtomicUsize) -> Reading<'a> {
        readers.fetch_add(1, Ordering::SeqCst);
        Reading(readers)
    }
}

impl Drop for Reading<'_> {
    fn drop(&mut self) {
        self.0.fetch_sub(1, Ordering::SeqCst);
    }
}

impl Shared {
    /// Returns the channels of the run so far.
    pub(crate) fn run(&self) -> RunSoFar<'_> {
        // Before the channels are read.
        let reading = Reading::new(&self.readers);
        RunSoFar {
            shared: self,
            channels: lock(&self.channels).clone(),
            locked: 0,
            _reading: reading,
        }
    }

    /// Returns the run without the channels that this thread may have locked: those that aren't
    /// free for this time. Returns `None` if it can't be read at all.
    pub(super) fn readable_run(&self, patience: Duration) -> Option<RunSoFar<'_>> {
        let reading = Reading::new(&self.readers);
        let mut channels = try_lock_for(&self.channels, patience)?.clone();
        drop(try_lock_for(&self.actors, patience)?);
        let all = channels.len();
        channels.keep(|channel| try_lock_for(channel, patience).is_some());
        Some(RunSoFar {
            shared: self,
            locked: (all - channels.len()) as u64,
            channels,
            _reading: reading,
        })
    }
}

impl RunSoFar<'_> {
    /// What the channels of the run share.
    pub(super) fn recorder(&self) -> &Shared {
        self.shared
    }

    /// Returns how many calls are recorded.
    pub(super) fn len(&self) -> u64 {
        let entries = self
            .channels
            .iter()
            .map(|channel| lock(channel).core.entries());
        entries.sum()
    }

    /// Returns what the channels have recorded up to now.
    fn recorded(&self) -> io::Result<journal::Run> {
        if self.shared.keeps_last() {
            return self.window().map(|read| read.run);
        }
        // Each call gets its number under its channel's lock. So once `cut` has locked a channel,
        // its calls before the cut are recorded.
        self.cut(self.shared.last()).map_err(|fault| {
            io::Error::other(match fault {
                CutFault::NoChannels if self.shared.is_off => IS_OFF.to_string(),
                CutFault::NoChannels => {
                    format!("no channel belongs to this recorder. It records {ITS_CHANNELS}")
                }
                CutFault::NoMemory => "no memory for the journal".to_string(),
                // No recorder has more than 64 channels, and the stamps of each rise.
                CutFault::TooManyChannels | CutFault::OutOfOrder => fault.to_string(),
            })
        })
    }

    /// Returns the text of what the channels have recorded up to now.
    pub(crate) fn journal(&self) -> io::Result<String> {
        text_of(&self.recorded()?)
    }

    /// Returns what the channels have recorded up to this stamp.
    fn cut(&self, last: u64) -> Result<journal::Run, CutFault> {
        let mut cut = Cut::new();
        for channel in &self.channels {
            cut.add(lock(channel).core.recorded(), last)?;
        }
        cut.run()
    }

    /// Returns what is known of the run beside its journal.
    pub(crate) fn names(&self) -> Sidecar {
        let mut names = Sidecar::default();
        let mut indexes = Indexes::default();
        for (number, channel) in (0..).zip(&self.channels) {
            add_channel(&mut names, &mut indexes, number, &lock(channel));
        }
        self.add_shared(&mut names, &mut indexes);
        names.locations = indexes.locations;
        sort_by_key(&mut names.waiting, |wait| wait.since);
        sort_by_key(&mut names.dropped_waits, |wait| wait.until);
        names
    }

    /// Adds what is known of all channels.
    fn add_shared(&self, names: &mut Sidecar, indexes: &mut Indexes) {
        let actors = lock(&self.shared.actors);
        names.actors = (0..).zip(actors.names()).collect();
        let first_calls = actors.first_calls().iter();
        names.tasks = first_calls
            .map(|(actor, location)| (*actor, indexes.of(location)))
            .collect();
        names.matching.unnamed = actors.unnamed().clone();
        names.matching.is_quiet = self.shared.is_quiet();
        names.ending.unrecorded = self.shared.unrecorded();
        names.ending.unrecorded.locked = self.locked;
    }

    /// Returns the number of this channel with its copy, if the run has it.
    pub(super) fn number_of(
        &self,
        (channel, kept): (Arc<ChannelLock<ChannelState>>, KeptChannel),
    ) -> Option<(usize, KeptChannel)> {
        let number = self
            .channels
            .iter()
            .position(|it| Arc::ptr_eq(it, &channel))?;
        Some((number, kept))
    }

    /// Copies the last calls of the channels, for a run up to this stamp. `own` is the copy of one
    /// of them, by its number, that was made before.
    pub(super) fn copied(
        &self,
        mut own: Option<(usize, KeptChannel)>,
        last: u64,
    ) -> io::Result<Copied> {
        let no_memory = |NoMemory| io::Error::other("no memory for the journal");
        let mut channels = reserved(self.channels.len()).map_err(no_memory)?;
        let mut wanted = None;
        for (number, channel) in self.channels.iter().enumerate() {
            let kept = match own.take_if(|(own, _)| *own == number) {
                Some((_, kept)) => {
                    wanted = Some(channels.len());
                    Some(kept)
                }
                None => lock(channel).kept(self.shared.times).map_err(no_memory)?,
            };
            channels.push_all(kept);
        }
        let (mut names, mut indexes) = (Sidecar::default(), Indexes::default());
        self.add_shared(&mut names, &mut indexes);
        Ok(Copied {
            channels,
            wanted,
            last,
            names,
            indexes,
        })
    }

    /// Returns the run of the last calls, and its names.
    fn window(&self) -> io::Result<Read> {
        let copied = self.copied(None, self.shared.last())?;
        let (why, most) = match &self.shared.flight {
            Some(_) => (Why::asked(), Most::of_dump(copied.channels.len(), None)),
            None => (Why::past_limit(), Most::of_test()),
        };
        copied.into_run(why, most)
    }

    /// Returns the calls that wait, or were woken and have not gone on, in the order in which they
    /// began to wait.
    pub(super) fn waiting(&self) -> Vec<Waiting> {
        let mut waiting = vec![];
        for (number, channel) in (0..).zip(&self.channels) {
            let state = lock(channel);
            // Under the channel's lock: an actor has its name before it waits.
            let calls = state.who_waits();
            if calls.is_empty() {
                continue;
            }
            // Under the channel's lock: an actor has its name before it waits.
            let actors = lock(&self.shared.actors).names();
            let name = |actor: Actor| actors[actor.number() as usize].clone();
            let calls = calls.iter();
            waiting.push_all(calls.map(|call| Waiting::new(call, number, &state, name)));
        }
        sort_by_key(&mut waiting, Waiting::since);
        waiting
    }

    /// Returns the recorded run, its journal text, and the names that belong to it. They are also
    /// about the test, if it is one of a test.
    pub(super) fn saved(&self, test: Option<&TestRun>) -> io::Result<Saved> {
        let Read {
            run,
            mut names,
            raised,
        } = self.read()?;
        let journal = text_of(&run)?;
        if let Some(test) = test {
            test.add_to(&mut names);
            self.add_waits_at_failure(&mut names, &test.waits_at_failure());
            self.add_last_drops(&mut names);
            self.add_tasks_seen(&mut names, raised);
            window_names::raise_ending(&mut names, raised);
        }
        if automatic::is_under_command() {
            source_names::add(&mut names, &run);
        }
        names.fit_to(&run, &journal);
        names.add_sources(&|paths| Program::this().root_of(paths));
        Ok(Saved {
            run,
            journal,
            names,
        })
    }

    /// Adds those of these calls that don't wait any more, and says of the others what they did
    /// then: unwinding may have woken them since. A window has no such ones.
    fn add_waits_at_failure(&self, names: &mut Sidecar, waits: &[WaitThen]) {
        if names.window.is_some() {
            return;
        }
        for then in waits {
            let mut channels = (0..).zip(&self.channels);
            let Some((number, channel)) = channels.find(|(_, it)| then.is_on(it)) else {
                continue;
            };
            let handle = lock(channel).core.nth(then.then.wait.handle);
            let mut index_of = |at: &Location<'_>| names.index_of(&at.into());
            let call = waiting_call(&then.then, (number, handle), &mut index_of);
            match names.waiting.iter_mut().find(|it| it.is_same(&call)) {
                Some(waiting) => waiting.woken = call.woken,
                None => names.waited_at_failure.push(call),
            }
        }
        sort_by_key(&mut names.waited_at_failure, |wait| wait.since);
    }

    /// Adds where the last sender and the last receiver of each channel were dropped. That reads
    /// the symbols of the program, so it is only for a report.
    fn add_last_drops(&self, names: &mut Sidecar) {
        let here = env::current_dir().unwrap_or_default();
        for (number, channel) in (0..).zip(&self.channels) {
            let drops = lock(channel).last_drops.clone();
            for (which, stack) in (0..).zip(&drops.stacks()) {
                let frame = stack.and_then(|stack| stacks::first_own(stack, &here));
                let Some(Frame { function, location }) = frame else {
                    continue;
                };
                if let Some(location) = location {
                    let location = names.index_of(&location);
                    let of_channel = names.dropped_at.get_or_default(number);
                    of_channel.insert(which, location);
                }
                let of_channel = names.dropped_in.get_or_default(number);
                of_channel.insert(which, function);
            }
        }
    }

    /// Returns the recorded run, and names that may be of calls after it too.
    fn read(&self) -> io::Result<Read> {
        if self.shared.keeps_last() {
            return self.window();
        }
        Ok(Read {
            run: self.recorded()?,
            names: self.names(),
            raised: 0,
        })
    }

    /// Returns the recorded run with its names, without the texts of its files.
    pub(crate) fn with_names(&self) -> io::Result<(journal::Run, Sidecar)> {
        let Read { run, mut names, .. } = self.read()?;
        names.fit_to(&run, "");
        Ok((run, names))
    }

    /// Writes the journal to this file, and the names to the one beside it.
    pub(crate) fn save(&self, path: &Path) -> io::Result<()> {
        let Saved { journal, names, .. } = self.saved(None)?;
        fs::write(path, journal)?;
        fs::write(path.with_extension("names"), names.to_json())
    }
}

/// The last calls of channels, and what is known of them all.
pub(super) struct Copied {
    pub(super) channels: Vec<KeptChannel>,
    /// The channel that the dump is about, by its number.
    pub(super) wanted: Option<usize>,
    last: u64,
    pub(super) names: Sidecar,
    indexes: Indexes,
}

impl Copied {
    /// Makes a run of them, and its names. No channel is locked.
    pub(super) fn into_run(mut self, why: Why, most: Most) -> io::Result<Read> {
        let no_memory = |NoMemory| io::Error::other("no memory for the journal");
        let mut calls = reserved(self.channels.len()).map_err(no_memory)?;
        let mut noted = reserved(self.channels.len()).map_err(no_memory)?;
        for channel in self.channels {
            calls.push(Calls {
                most_of_lead: channel.most_of_lead(),
                kept: channel.calls,
            });
            noted.push(channel.noted);
        }
        let made = Windows::of(calls, self.last, most)?;
        let channels = (&*noted, &made);
        window_names::add(&mut self.names, &mut self.indexes, channels, why)
            .map_err(|NoMemory| io::Error::other("no memory for the names"))?;
        self.names.locations = self.indexes.locations;
        Ok(Read {
            run: made.run,
            names: self.names,
            raised: made.raised,
        })
    }
}

/// A run and its names.
pub(super) struct Read {
    pub(super) run: journal::Run,
    pub(super) names: Sidecar,
    /// By how much the stamps of calls are raised.
    pub(super) raised: u64,
}

/// A recorded run, as its files have it.
pub(crate) struct Saved {
    pub(crate) run: journal::Run,
    pub(crate) journal: String,
    pub(crate) names: Sidecar,
}

pub(super) fn text_of(run: &journal::Run) -> io::Result<String> {
    let text = run.text();
    let text = text.map_err(|NoMemory| io::Error::other("no memory for the journal"))?;
    String::from_utf8(text).map_err(io::Error::other)
}

/// How many locations are looked up without a hash. A loop makes its calls at a few places.
const RECENT: usize = 16;

/// The locations of a run without repeats, and the index of each.
#[derive(Default)]
pub(super) struct Indexes {
    locations: Vec<SourceLocation>,
    by_address: NumberMap<usize, usize>,
    // One that is at several addresses is one text.
    by_text: TextMap<usize>,
    // Some that were looked up last, by a part of their address.
    recent: [Option<(&'static Location<'static>, usize)>; RECENT],
}

impl Indexes {
    pub(super) fn of(&mut self, location: &'static Location<'static>) -> usize {
        let address = ptr::from_ref(location).addr() / align_of::<Location<'_>>();
        if let Some((recent, index)) = self.recent[address % RECENT] {
            if ptr::eq(recent, location) {
                return index;
            }
        }
        let index = *self.by_address.get_or_insert_with(address, || {
            let index = self.locations.len();
            let known = self
                .by_text
                .get_or_insert_with(&location.to_string(), || index);
            if *known == index {
                self.locations.push(location.into());
            }
            *known
        });
        self.recent[address % RECENT] = Some((location, index));
        index
    }

    /// Describes a call that waits, by the numbers of its channel and handle.
    pub(super) fn waiting(&mut self, call: &WaitNow, channel: u64, handle: u64) -> WaitingCall {
        waiting_call(call, (channel, handle), &mut |location| self.of(location))
    }

    /// Describes a call that began to wait, and no longer does, in the same way.
    fn begun(&mut self, wait: &Wait, channel: u64, handle: u64) -> WaitingCall {
        begun_call(wait, (channel, handle), &mut |location| self.of(location))
    }

    fn of_all(&mut self, sites: &CallSites) -> Vec<Option<usize>> {
        sites
            .iter()
            .map(|site| site.map(|location| self.of(location)))
            .listed()
    }
}

/// Describes a call that waits, by the numbers of its channel and handle, and the indexes of its
/// locations.
fn waiting_call(
    call: &WaitNow,
    (channel, handle): (u64, u64),
    index_of: &mut dyn FnMut(&'static Location<'static>) -> usize,
) -> WaitingCall {
    WaitingCall {
        woken: call.is_woken(),
        ..begun_call(&call.wait, (channel, handle), index_of)
    }
}

/// Describes a call that began to wait, of which it isn't known whether it was woken.
fn begun_call(
    wait: &Wait,
    (channel, handle): (u64, u64),
    index_of: &mut dyn FnMut(&'static Location<'static>) -> usize,
) -> WaitingCall {
    let held_by = match wait.awaited {
        Awaited::Value | Awaited::NoReceiver => None,
        Awaited::Lock(look) => Some(HeldBy {
            actor: look.map(|look| look.actor.number().into()),
            location: look.and_then(|look| look.called_at).map(&mut *index_of),
        }),
    };
    WaitingCall {
        actor: wait.actor.number().into(),
        channel,
        handle,
        call: wait.method.name.to_string(),
        since: wait.since,
        location: wait.method.called_at.map(index_of),
        held_by,
        ..WaitingCall::default()
    }
}

/// Adds what a channel knows of itself, under its number. A table that would be empty is left out.
fn add_channel(names: &mut Sidecar, indexes: &mut Indexes, number: u64, channel: &ChannelState) {
    let seldom = channel.seldom();
    if let Some(name) = &seldom.name {
        names.channels.insert(number, name.clone());
    }
    if !seldom.texts.is_empty() {
        names.values.insert(number, seldom.texts.clone());
    }
    let handle_names = channel.names_in_journal();
    if !handle_names.is_empty() {
        names.handles.insert(number, handle_names);
    }
    if let Some(maker) = &channel.made_by {
        names.matching.made_by.insert(number, maker.clone());
    }
    if !seldom.waited.is_empty() {
        names.matching.waited.insert(number, seldom.waited.clone());
    }
    if !seldom.cancelled.is_empty() {
        let cancelled = seldom.cancelled.clone();
        names.matching.cancelled.insert(number, cancelled);
    }
    let made = indexes.of_all(&channel.locations.of_handles);
    let made = (0..)
        .zip(made)
        .filter_map(|(handle, index)| Some((handle, index?)));
    names.made.insert(number, made.collect());
    let calls = indexes.of_all(&channel.locations.of_calls);
    if !calls.is_empty() {
        names.calls.insert(number, calls);
    }
    let nth = |wait: &Wait| channel.core.nth(wait.handle);
    let waits = channel.who_waits();
    let waits = waits
        .iter()
        .map(|call| indexes.waiting(call, number, nth(&call.wait)));
    names.waiting.push_all(waits);
    let dropped = seldom.dropped_waits.iter().map(|dropped| WaitingCall {
        until: Some(dropped.until),
        waited: dropped.waited().map(|waited| waited.as_micros() as u64),
        ..indexes.begun(&dropped.wait, number, nth(&dropped.wait))
    });
    names.dropped_waits.push_all(dropped);
}

#[cfg(test)]
mod tests {
    use super::*;
    use crate::{Handle, Recorder, broadcast};

    #[test]
    fn a_channel_that_this_thread_has_locked_is_left_out() {
        let recorder = Recorder::new();
        let _entered = recorder.enter();
        let (orders, _audit) = broadcast::channel::<u32>(2);
        let (prices, _chart) = broadcast::channel(4);
        recorder.name(&orders, "orders").name(&prices, "prices");
        prices.send(101).unwrap();
        let locked = lock(&orders.recorded().channel.state);
        let run = recorder.0.readable_run(Duration::ZERO).unwrap();
        let Saved { journal, names, .. } = run.saved(None).unwrap();
        assert!(journal.starts_with("ttd-journal 2\nbroadcast 4\nsteps\n"));
        assert_eq!(names.channels, [(0, "prices".to_string())].into());
        assert_eq!(names.ending.unrecorded.locked, 1);
        drop(locked);
        let _all = lock(&recorder.0.actors);
        assert!(recorder.0.readable_run(Duration::ZERO).is_none());
    }
}
