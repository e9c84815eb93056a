//! What the channels of a recorder share.

use super::flight::{Flight, WriteDump};
use super::makers::Makers;
use super::noted_panic::PATIENCE;
use super::texts::Texts;
use crate::channels::actors::{self, Actors, CallerNumber};
use crate::channels::atomic::AtomicU64;
use crate::channels::backend::Actor;
use crate::channels::channel::{CallSite, ChannelState, Known, SendMade};
use crate::channels::channel_lock::ChannelLock;
use crate::channels::lock::{lock, try_lock_for};
use crate::channels::reentrant::thread_number;
use crate::channels::turns::{self, Turns};
use crate::channels::whereabouts::WatchedTest;
use std::sync::atomic::{AtomicBool, AtomicUsize, Ordering};
use std::sync::{Arc, Mutex, OnceLock, Weak};
use std::time::Duration;
use yovanelum_record::by_text::TextSet;
use yovanelum_record::clock::{FLIGHT_START, Times};
use yovanelum_record::listed::IntoList;
use yovanelum_record::sidecar::{Maker, Unrecorded};

/// How many channels a run has at most.
const MOST_CHANNELS: usize = 64;

/// The value of `end` while recording continues.
const NEVER: u64 = u64::MAX;

/// The value of `end` once each channel keeps its last calls alone.
const GOES_ON: u64 = NEVER - 1;

static NEXT_ID: AtomicU64 = AtomicU64::new(1);

/// Counts calls. Each gets a number under its channel's lock, and passes it to the core as its
/// clock. Every call of every thread writes it, so it shares no cache line with other data.
#[repr(align(128))]
struct CallCounter(AtomicU64);

/// What a recorder's channels share.
pub(crate) struct Shared {
    pub(crate) id: u64,
    // The thread that has created the recorder, or that runs its test.
    home: AtomicUsize,
    // Whether channels that are created under this recorder aren't recorded.
    pub(crate) is_off: bool,
    // Whether channels keep their last calls once one of them has as many as a journal takes.
    may_go_on: AtomicBool,
    // Of a recorder whose channels keep their last calls from their opening on.
    pub(crate) flight: Option<Flight>,
    pub(crate) times: Times,
    clock: CallCounter,
    // The last stamp that is recorded.
    end: AtomicU64,
    pub(crate) is_quiet: AtomicBool,
    // Whether values have texts that nobody asked for, where their types are known.
    shows_known: AtomicBool,
    left_out: LeftOut,
    pub(crate) channels: Mutex<Vec<Arc<ChannelLock<ChannelState>>>>,
    pub(crate) actors: Mutex<Actors>,
    // What orders the calls, in a replay.
    pub(crate) turns: Option<Arc<dyn Turns>>,
    // How many runs of this recorder are being read.
    pub(crate) readers: AtomicUsize,
    makers: Mutex<Makers>,
    // Held by the handles of the recorder alone. A channel, which holds this, may be held by a
    // function there.
    texts: Mutex<Weak<Texts>>,
    // What is seen of the tasks of a test.
    pub(crate) watched: OnceLock<Arc<WatchedTest>>,
}

fn find_after(is_changed: bool, find: impl Fn() -> Option<Actor>) -> Option<Actor> {
    if is_changed { find() } else { None }
}

/// How many channels were left out, by the reason.
#[derive(Default)]
struct LeftOut {
    channels_that_left: AtomicUsize,
    too_many_channels: AtomicUsize,
    too_many_handles: AtomicUsize,
}

/// Counts a channel, and writes a line to standard error if it is the first one.
#[cold]
fn count_and_tell(count: &AtomicUsize, line: &str) {
    if count.fetch_add(1, Ordering::Relaxed) == 0 {
        eprintln!("yovanelum: {line}");
    }
}

impl Shared {
    /// Creates the shared part of a recorder without channels.
    pub(crate) fn new(is_off: bool) -> Shared {
        Shared {
            id: NEXT_ID.fetch_add(1, Ordering::Relaxed),
            home: AtomicUsize::new(thread_number()),
            is_off,
            may_go_on: AtomicBool::new(false),
            flight: None,
            times: Times::begin(),
            clock: CallCounter(AtomicU64::new(0)),
            end: AtomicU64::new(NEVER),
            is_quiet: AtomicBool::new(false),
            shows_known: AtomicBool::new(false),
            left_out: LeftOut::default(),
            channels: Mutex::default(),
            actors: Mutex::default(),
            turns: None,
            readers: AtomicUsize::new(0),
            makers: Mutex::default(),
            texts: Mutex::default(),
            watched: OnceLock::new(),
        }
    }

    /// Creates the shared part of a recorder whose channels each keep their last calls.
    pub(crate) fn flight(calls_per_channel: usize, write: WriteDump) -> Shared {
        let mut shared = Shared::new(false);
        shared.flight = Some(Flight::new(calls_per_channel, write));
        shared.clock = CallCounter(AtomicU64::new(FLIGHT_START));
        lock(&shared.actors).reserve_last();
        shared
    }

    /// Has the calls on the channels of a new recorder ordered by this. These are the names of the
    /// journal's actors by number, `None` for those that nobody named.
    pub(crate) fn follow(&mut self, turns: Arc<dyn Turns>, actors: Vec<Option<String>>) {
        lock(&self.actors).preload(actors);
        self.turns = Some(turns);
    }

    /// Returns the thread that has created the recorder, or that runs its test.
    pub(crate) fn home(&self) -> usize {
        self.home.load(Ordering::Relaxed)
    }

    /// Has values of known types have texts, on channels that are created from now on.
    pub(crate) fn show_known(&self) {
        self.shows_known.store(true, Ordering::Relaxed);
    }

    /// Whether values have texts that nobody asked for.
    pub(crate) fn shows_known(&self) -> bool {
        self.shows_known.load(Ordering::Relaxed)
    }

    /// Says which thread runs the test of this recorder.
    pub(crate) fn set_home(&self, thread: usize) {
        self.home.store(thread, Ordering::Relaxed);
    }

    /// Whether channels that are created under this recorder aren't recorded.
    pub(crate) fn is_off(&self) -> bool {
        self.is_off
    }

    /// Returns who makes a channel now. It is called once for each channel of this recorder.
    pub(crate) fn maker(&self) -> Maker {
        let mut makers = lock(&self.makers);
        let name = makers.name_of_caller();
        if self.turns.is_some() || makers.are_many() {
            drop(makers);
            self.see_maker(name.as_deref());
            makers = lock(&self.makers);
        }
        let nth = makers.count(name.as_deref());
        Maker { name, nth }
    }

    /// Tells who makes a channel, in a replay. Else it forgets makers whose channels have left the
    /// run, since there are many.
    #[cold]
    fn see_maker(&self, name: Option<&str>) {
        if let Some(turns) = &self.turns {
            return turns.see_maker(name);
        }
        let channels = lock(&self.channels).clone();
        let mut in_run = TextSet::new();
        for channel in &channels {
            let state = lock(channel);
            if let Some(name) = state.made_by.as_ref().and_then(|it| it.name.as_deref()) {
                in_run.insert(name);
            }
        }
        lock(&self.makers).forget_others(&in_run);
    }

    /// Whether a channel was created under this recorder.
    pub(crate) fn has_made_channels(&self) -> bool {
        let makers = try_lock_for(&self.makers, PATIENCE);
        makers.is_none_or(|makers| makers.have_made())
    }

    /// Whether no channel was created under this recorder, though it records.
    pub(crate) fn has_nothing(&self) -> bool {
        !self.is_off && !self.has_made_channels()
    }

    /// Returns the names of channels that have one, by number.
    pub(crate) fn channel_names(&self) -> Vec<(u32, String)> {
        let channels = lock(&self.channels);
        let named = (0..).zip(&*channels);
        named
            .filter_map(|(number, channel)| Some((number, lock(channel).seldom().name.clone()?)))
            .listed()
    }

    /// Returns the channels as they are, without those that are locked.
    pub(crate) fn known_channels(&self) -> Vec<Known> {
        let channels = try_lock_for(&self.channels, Duration::ZERO);
        let channels = channels.map_or_else(Vec::new, |channels| channels.clone());
        let known = (0..).zip(&channels).filter_map(|(number, channel)| {
            Some(try_lock_for(channel, Duration::ZERO)?.known(number))
        });
        known.listed()
    }

    /// Returns the functions that the recorder's handles hold.
    pub(crate) fn texts(&self) -> Arc<Texts> {
        let mut held = lock(&self.texts);
        held.upgrade().unwrap_or_else(|| {
            let texts = Arc::new(Texts::new(self.turns.clone()));
            *held = Arc::downgrade(&texts);
            texts
        })
    }

    /// Returns what the recorder's handles hold, if one is alive.
    fn held(&self) -> Option<HeldTexts> {
        lock(&self.texts).upgrade()
    }

    /// Returns the greatest stamp that a recorded call can have so far.
    #[inline]
    pub(crate) fn last(&self) -> u64 {
        let CallCounter(clock) = &self.clock;
        clock
            .load(Ordering::SeqCst)
            .min(self.end.load(Ordering::SeqCst))
    }

    /// Returns the clock's number for a call whose channel is locked, and shares the clock with
    /// others or doesn't.
    #[inline(always)]
    pub(crate) fn tick(&self, is_shared: bool) -> u64 {
        let CallCounter(clock) = &self.clock;
        if is_shared {
            return clock.fetch_add(1, Ordering::SeqCst);
        }
        // With one channel each call holds its lock, so no other call changes the clock in between.
        let now = clock.load(Ordering::Relaxed);
        clock.store(now + 1, Ordering::Release);
        now
    }

    /// Whether a channel has recorded as many calls as a journal takes.
    #[inline(always)]
    pub(crate) fn is_past_limit(&self) -> bool {
        self.end.load(Ordering::SeqCst) != NEVER
    }

    /// Whether the recording of all channels has ended.
    #[inline]
    pub(crate) fn has_ended(&self) -> bool {
        self.end.load(Ordering::SeqCst) < GOES_ON
    }

    /// Lets channels keep their last calls once one has as many as a journal takes.
    pub(crate) fn go_on_past_limit(&self) {
        let is_fixed = self.turns.is_some() || turns::explored().is_some();
        self.may_go_on.store(!is_fixed, Ordering::Relaxed);
    }

    /// Whether channels may keep their last calls, where a journal has no room for all.
    pub(crate) fn may_go_on(&self) -> bool {
        self.may_go_on.load(Ordering::Relaxed) && !self.has_ended()
    }

    /// Says that channels keep their last calls alone from now on.
    pub(crate) fn go_on(&self) {
        if self.end.fetch_min(GOES_ON, Ordering::SeqCst) == NEVER {
            eprintln!(
                "yovanelum: a channel has recorded as many calls as a journal takes (1048576); from here on, the last calls of each channel are kept"
            );
        }
    }

    /// Whether the last calls of channels are kept, and not all.
    pub(crate) fn keeps_last(&self) -> bool {
        self.flight.is_some() || self.end.load(Ordering::SeqCst) == GOES_ON
    }

    /// Looks up the actor of a call that is made here in the source, given its task.
    #[cold]
    pub(crate) fn find_actor(&self, task: Option<u64>, called_at: CallSite) -> Actor {
        let find = || lock(&self.actors).find(task, called_at);
        if let Some(actor) = find().or_else(|| find_after(self.give_numbers_away(), find)) {
            return actor;
        }
        if let Some(actor) = lock(&self.actors).find_for_task() {
            return actor;
        }
        let (actor, is_first_to_share) = lock(&self.actors).share();
        if is_first_to_share {
            let most = actor.number() + 1;
            eprintln!(
                "yovanelum: a journal names {most} actors; those who come later are recorded as the last one"
            );
        }
        actor
    }

    /// Gives away the numbers of actors that are gone and that no stored call has. Returns `false`
    /// if it isn't looked for any. In a replay numbers are those of the journal, and in a run that
    /// is explored those of the runs before.
    // Each lock is released before the next one. Whoever is gone makes no further call, so what is
    // read of the channels stays so.
    fn give_numbers_away(&self) -> bool {
        let left = self.left_out.channels_that_left.load(Ordering::Relaxed);
        let is_fixed = self.turns.is_some() || turns::explored().is_some();
        if is_fixed || !lock(&self.actors).looks_for_unused(left) {
            return false;
        }
        let unused = lock(&self.actors).unused();
        let channels = lock(&self.channels).clone();
        let stored = channels.iter().map(|channel| lock(channel).stored_actors());
        let stored = stored.fold(0, |all, of_one| all | of_one);
        let mut actors = lock(&self.actors);
        // A run that is being read may have a channel that has left since.
        if self.readers.load(Ordering::SeqCst) == 0 {
            actors.give_away(unused, stored);
        }
        drop(actors);
        true
    }

    /// Returns the number of the current actor, if it has one and that can be read in this time.
    pub(crate) fn known_actor(&self, patience: Duration) -> Option<u64> {
        let actors = try_lock_for(&self.actors, patience)?;
        actors.known().map(|actor| actor.number().into())
    }

    /// Returns what was called and isn't in the journal.
    pub(crate) fn unrecorded(&self) -> Unrecorded {
        let count = |count: &AtomicUsize| count.load(Ordering::Relaxed) as u64;
        Unrecorded {
            channels: count(&self.left_out.too_many_channels),
            left: count(&self.left_out.channels_that_left),
            calls: self.has_ended(),
            handles: count(&self.left_out.too_many_handles),
            locked: 0,
        }
    }

    /// Whether questions leave no entry.
    #[inline]
    pub(crate) fn is_quiet(&self) -> bool {
        self.is_quiet.load(Ordering::Relaxed)
    }

    /// Returns the actor of a call that is made here in the source.
    #[inline(always)]
    pub(crate) fn actor(&self, called_at: CallSite) -> Actor {
        self.caller(called_at).0
    }

    /// Returns the actor of a call that is made here in the source, and the number by which a
    /// channel notes who has sent last.
    #[inline(always)]
    pub(crate) fn caller(&self, called_at: CallSite) -> (Actor, CallerNumber) {
        actors::current(self.id, move |task| self.find_actor(task, called_at))
    }

    /// Ends the recording of all channels. Calls with a stamp above this are not recorded.
    pub(crate) fn end_at(&self, last: u64) {
        if self.end.fetch_min(last, Ordering::SeqCst) >= GOES_ON {
            eprintln!(
                "yovanelum: a channel has recorded as many calls as a journal takes (1048576); recording ended there, and calls go on unrecorded"
            );
        }
    }

    /// Reports that a channel makes more handles than a journal names: its recording ends, or is
    /// paused.
    #[cold]
    pub(crate) fn tell_of_too_many_handles(&self, is_paused: bool) {
        let line = if is_paused {
            "nearly as many senders and receivers of a channel are alive as a journal names (65536); its calls go on unrecorded until there is room again"
        } else {
            "a channel has created as many handles as a journal names (65536); its recording ended there, and its calls go on unrecorded"
        };
        count_and_tell(&self.left_out.too_many_handles, line);
    }

    /// Notes that a channel is recorded again, since there is room for its handles.
    #[cold]
    pub(crate) fn tell_of_room(&self) {
        self.left_out
            .too_many_handles
            .fetch_sub(1, Ordering::Relaxed);
    }

    /// Leaves out the next `numbers` of the clock. The lock of a channel is held.
    #[cold]
    pub(crate) fn skip(&self, numbers: u64) {
        let CallCounter(clock) = &self.clock;
        clock.fetch_add(numbers, Ordering::SeqCst);
    }

    /// How many calls of each channel are kept at least, if the last ones alone are kept from the
    /// opening on.
    pub(crate) fn calls_per_channel(&self) -> Option<usize> {
        self.flight.as_ref().map(|flight| flight.calls_per_channel)
    }

    /// Adds a channel to the run. If the run is full, the oldest dead channel leaves it. Returns
    /// `false` if there is none, and the channel isn't added.
    pub(crate) fn add(&self, channel: &Arc<ChannelLock<ChannelState>>) -> bool {
        let mut channels = lock(&self.channels);
        // The clock is shared before the second channel uses it.
        if let [first] = &channels[..] {
            lock(first).shares_clock = true;
        }
        lock(channel).shares_clock = !channels.is_empty();
        let mut left = None;
        if channels.len() >= MOST_CHANNELS {
            left = channels.iter().position(|other| lock(other).is_dead());
            if left.is_none() {
                drop(channels);
                count_and_tell(
                    &self.left_out.too_many_channels,
                    "64 channels of a run are alive; this channel is recorded by none, as is each one that is created while they are",
                );
                return false;
            }
        }
        let left = left.map(|index| channels.remove(index));
        channels.push(channel.clone());
        drop(channels);
        if left.is_some() {
            count_and_tell(
                &self.left_out.channels_that_left,
                "a run has 64 channels; from here on, the oldest one whose senders and receivers are dropped leaves it for each new one",
            );
        }
        true
    }
}

/// What the handles of a recorder hold. If it is dropped, that may run user code.
pub(crate) type HeldTexts = Arc<Texts>;

/// By whom a channel is recorded: the recorder that it belongs to, or none.
pub(crate) struct RecordedBy(pub(crate) Option<Arc<Shared>>);

impl RecordedBy {
    /// Whether questions leave no entry.
    #[inline]
    pub(crate) fn is_quiet(&self) -> bool {
        self.0.as_ref().is_none_or(|recorder| recorder.is_quiet())
    }

    /// Whether values of known types have texts that nobody asked for.
    pub(crate) fn shows_known(&self) -> bool {
        self.0
            .as_ref()
            .is_some_and(|recorder| recorder.shows_known())
    }

    /// Whether there is a recorder, and its recording hasn't ended.
    #[inline]
    pub(crate) fn is_recording(&self) -> bool {
        let recorder = self.0.as_ref();
        recorder.is_some_and(|recorder| !recorder.has_ended())
    }

    /// Returns what the handles of the recorder hold, if there is a recorder and one is alive.
    pub(crate) fn held(&self) -> Option<HeldTexts> {
        self.0.as_ref()?.held()
    }

    /// Returns the name of who has made a send that is recorded.
    pub(crate) fn name_of_sender(&self, send: &SendMade) -> Option<String> {
        if let Some(name) = &send.sharing {
            return Some(name.to_string());
        }
        let actors = lock(&self.0.as_ref()?.actors);
        actors.name(send.actor).cloned()
    }

    /// Returns the actor of a call that is made here in the source. What isn't recorded has the
    /// first one.
    #[inline]
    pub(crate) fn actor(&self, called_at: CallSite) -> Actor {
        match self.0.as_deref() {
            Some(recorder) => recorder.actor(called_at),
            None => Actor::FIRST,
        }
    }
}
