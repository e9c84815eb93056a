//! When dumps are written, and how many were.

use super::dump::Dumps;
use crate::channels::atomic::AtomicU64;
use crate::channels::lock::lock;
use std::io;
use std::path::{Path, PathBuf};
use std::sync::Mutex;
use std::sync::atomic::Ordering;
use std::time::{Duration, Instant};
use yovanelum_record::listed::Keep;

/// How many dumps that panics and callers have called for are begun at once. Each has a copy of the
/// channels' last calls until it is its turn.
const MOST_AT_ONCE: usize = 8;

/// How many places of panics are known apart.
const PLACES_KEPT: usize = 64;

/// What calls for a dump.
#[derive(Clone, Copy, PartialEq, Eq)]
pub(crate) enum Trigger {
    Lag,
    Close,
    Panic,
    Call,
}

impl Trigger {
    /// Returns its word in the names of a dump.
    pub(crate) fn word(self) -> &'static str {
        match self {
            Trigger::Lag => "lag",
            Trigger::Close => "close",
            Trigger::Panic => "panic",
            Trigger::Call => "call",
        }
    }

    /// Whether there is a pause between such dumps.
    fn has_pause(self) -> bool {
        matches!(self, Trigger::Lag | Trigger::Close)
    }
}

/// What calls for dumps, and where they are written.
pub(crate) struct DumpSettings {
    folder: Option<PathBuf>,
    pub(crate) closed: Vec<String>,
    pub(crate) at_most_every: Duration,
    pub(crate) keep: usize,
    begun: [BegunDumps; 4],
    /// Where panics were that have called for dumps, and when they did last.
    places: Vec<((String, u32), Instant)>,
}

/// The dumps that one trigger has called for.
#[derive(Clone, Copy, Default)]
struct BegunDumps {
    // When the last one was begun.
    last: Option<Instant>,
    // How many haven't ended.
    running: usize,
}

impl DumpSettings {
    fn begun(&mut self, trigger: Trigger) -> &mut BegunDumps {
        &mut self.begun[trigger as usize]
    }

    /// Whether a dump was begun a short time ago for this place. Else it is noted for it.
    fn is_again(&mut self, place: (String, u32), now: Instant) -> bool {
        let at_most_every = self.at_most_every;
        let is_near = |since: &Instant| now.saturating_duration_since(*since) < at_most_every;
        self.places.keep(|(_, since)| is_near(since));
        if self.places.iter().any(|(other, _)| *other == place) {
            return true;
        }
        if self.places.len() == PLACES_KEPT {
            self.places.remove(0);
        }
        self.places.push((place, now));
        false
    }

    /// Returns why a dump isn't begun at this time, if it isn't.
    fn refuses(&mut self, trigger: Trigger, now: Option<Instant>) -> Option<&'static str> {
        let at_most_every = self.at_most_every;
        let BegunDumps { last, running } = *self.begun(trigger);
        if !trigger.has_pause() {
            let are_many = running >= MOST_AT_ONCE;
            return are_many.then_some("too many dumps of this recorder are being written");
        }
        let since = now.zip(last).map(|(now, last)| now - last);
        let is_near = since.is_some_and(|since| since < at_most_every);
        if is_near {
            return Some("the last one for such a reason was begun too short a time ago");
        }
        (running > 0).then_some("one for such a reason is being written")
    }
}

/// The dumps of a recorder.
pub(crate) struct Dumping {
    settings: Mutex<DumpSettings>,
    // How many values a receiver has lost at least that calls for a dump: none does, if this is the
    // greatest number. It is read at each lag, so no lock is about it.
    least_lost: AtomicU64,
    written: AtomicU64,
    failed: AtomicU64,
    left_out: AtomicU64,
}

impl Default for Dumping {
    fn default() -> Dumping {
        Dumping {
            settings: Mutex::new(DumpSettings {
                folder: None,
                closed: Vec::new(),
                at_most_every: Duration::from_secs(60),
                keep: 16,
                begun: Default::default(),
                places: Vec::new(),
            }),
            least_lost: AtomicU64::new(u64::MAX),
            written: AtomicU64::new(0),
            failed: AtomicU64::new(0),
            left_out: AtomicU64::new(0),
        }
    }
}

impl Dumping {
    pub(crate) fn set_folder(&self, folder: &Path) {
        lock(&self.settings).folder = Some(folder.to_path_buf());
    }

    pub(crate) fn set(&self, set: impl FnOnce(&mut DumpSettings)) {
        set(&mut lock(&self.settings));
    }

    /// Calls for a dump at each lag by which a receiver has lost at least `least_lost` values.
    pub(crate) fn set_lag(&self, least_lost: u64) {
        self.least_lost.store(least_lost, Ordering::Relaxed);
    }

    /// Whether a lag of `lost` values calls for a dump.
    pub(super) fn is_for_lag(&self, lost: u64) -> bool {
        lost >= self.least_lost.load(Ordering::Relaxed)
    }

    /// Whether these settings call for a dump.
    pub(super) fn are(&self, wanted: impl FnOnce(&DumpSettings) -> bool) -> bool {
        wanted(&lock(&self.settings))
    }

    /// Begins a dump at this time, perhaps for a panic at a place, which `end` is to be told of.
    /// Returns its folder and how many are kept there.
    ///
    /// # Errors
    ///
    /// Returns why it isn't begun: there is no folder, or another one for such a reason is too
    /// near.
    pub(super) fn begin(
        &self,
        trigger: Trigger,
        place: Option<(String, u32)>,
        now: Option<Instant>,
    ) -> io::Result<(PathBuf, usize)> {
        let mut settings = lock(&self.settings);
        let Some(folder) = settings.folder.clone() else {
            drop(settings);
            return self.fail(io::Error::other("it has no folder: `dump_to` sets one"));
        };
        let again = place.zip(now);
        let refused = settings.refuses(trigger, now).or_else(|| {
            again
                .is_some_and(|(place, now)| settings.is_again(place, now))
                .then_some("the last one for a panic there was begun too short a time ago")
        });
        if let Some(why) = refused {
            self.left_out.fetch_add(1, Ordering::Relaxed);
            return Err(io::Error::new(io::ErrorKind::WouldBlock, why));
        }
        let begun = settings.begun(trigger);
        (begun.last, begun.running) = (now, begun.running + 1);
        Ok((folder, settings.keep))
    }

    /// Ends a dump that was begun.
    pub(super) fn end(&self, trigger: Trigger) {
        lock(&self.settings).begun(trigger).running -= 1;
    }

    /// Counts a dump that is written.
    pub(super) fn count_written(&self) {
        self.written.fetch_add(1, Ordering::Relaxed);
    }

    /// Counts a dump that has failed, and says why.
    pub(super) fn fail<T>(&self, error: io::Error) -> io::Result<T> {
        self.failed.fetch_add(1, Ordering::Relaxed);
        eprintln!("yovanelum: a dump isn't written: {error}");
        Err(error)
    }

    pub(crate) fn counts(&self) -> Dumps {
        let count = |count: &AtomicU64| count.load(Ordering::Relaxed);
        Dumps {
            written: count(&self.written),
            failed: count(&self.failed),
            left_out: count(&self.left_out),
        }
    }
}

#[cfg(test)]
mod tests {
    use super::*;

    /// A dumping with a folder, of which each dump is at most once in a minute without
    /// `at_most_every`.
    fn dumping() -> Dumping {
        let dumping = Dumping::default();
        dumping.set_folder(Path::new("dumps"));
        dumping
    }

    #[test]
    fn what_came_too_soon_puts_nothing_off() {
        let (dumping, begun) = (dumping(), Instant::now());
        // Each dump that is begun ends at once.
        let begins = |seconds, trigger| {
            let at = begun + Duration::from_secs(seconds);
            let begins = dumping.begin(trigger, None, Some(at)).is_ok();
            if begins {
                dumping.end(trigger);
            }
            begins
        };
        let lags = [0, 30, 59, 60, 61, 119].map(|seconds| begins(seconds, Trigger::Lag));
        assert_eq!(lags, [true, false, false, true, false, false]);
        // No other kind is put off by them, nor puts them off.
        assert_eq!(
            [119, 119].map(|at| begins(at, Trigger::Close)),
            [true, false]
        );
        assert_eq!(
            [119, 119].map(|at| begins(at, Trigger::Panic)),
            [true, true]
        );
        assert_eq!([119, 119].map(|at| begins(at, Trigger::Call)), [true, true]);
        assert!(begins(120, Trigger::Lag));
        assert_eq!(dumping.counts().left_out(), 5);
    }

    #[test]
    fn a_storm_of_panics_has_one_dump_for_each_place() {
        let (dumping, begun) = (dumping(), Instant::now());
        let begins = |seconds, line| {
            let place = Some(("src/a.rs".to_string(), line));
            let at = begun + Duration::from_secs(seconds);
            let begins = dumping.begin(Trigger::Panic, place, Some(at)).is_ok();
            if begins {
                dumping.end(Trigger::Panic);
            }
            begins
        };
        assert_eq!(
            [7, 7, 8, 7].map(|line| begins(0, line)),
            [true, false, true, false]
        );
        assert_eq!([59, 60, 61].map(|at| begins(at, 7)), [false, true, false]);
        // The least recent place is forgotten where there are too many.
        assert!((100..200).all(|line| begins(61, line)));
        assert!(begins(61, 7) && !begins(61, 199));
        assert_eq!(dumping.counts().left_out(), 5);
    }

    #[test]
    fn panics_and_callers_are_not_kept_from_a_dump_by_one_that_is_written() {
        let dumping = dumping();
        dumping.set(|settings| settings.at_most_every = Duration::ZERO);
        let begins = |trigger| dumping.begin(trigger, None, Some(Instant::now())).is_ok();
        assert_eq!([0; 2].map(|_| begins(Trigger::Lag)), [true, false]);
        for trigger in [Trigger::Panic, Trigger::Call] {
            assert!((0..MOST_AT_ONCE).all(|_| begins(trigger)));
            assert!(!begins(trigger));
            dumping.end(trigger);
            assert!(begins(trigger));
        }
        assert_eq!(dumping.counts().left_out(), 3);
    }
}
