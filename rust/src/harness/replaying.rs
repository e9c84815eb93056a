//! Recorders that replay a journal.

use super::files::file_name;
use super::test_run::{TestRun, begun};
use crate::channels::recorder::{REPLAY, Recorder, Shared};
use crate::channels::standard_error::say;
use crate::channels::turns::TestEnd;
use crate::harness::program::Program;
use crate::schedule::explore;
use crate::schedule::replay::{self, Gate, Replayed};
use std::path::{Path, PathBuf};
use std::sync::{Arc, OnceLock};
use std::{env, io};
use yovanelum_record::journal::Run;
use yovanelum_record::sidecar::{LeftReplay, Sidecar, TestId, test_beside};

/// What the name of a file has more if a replay has written it. So no replay overwrites the journal
/// that it reads.
pub(super) const REPLAYED: &str = ".replayed";

impl Recorder {
    /// Creates a recorder under which the calls of a journal are made again in its order.
    ///
    /// A call on a channel of this recorder waits until all calls that the journal has before it
    /// are made: a thread blocks, and a future is pending. So a test that failed by the order of
    /// its calls fails again. Give each task a name by [`named`](crate::named), also the one that
    /// runs the test, unless a patch of tokio does: callers without a name can't be told apart
    /// where they use the same sender or receiver.
    ///
    /// The replay diverges from the journal where another call comes than the recorded one, or none
    /// for two seconds, or for as many milliseconds as the environment variable
    /// `YOVANELUM_REPLAY_TIMEOUT_MS` says. One line on standard error then says where, and from
    /// there on calls are in no order. [`replayed`](Recorder::replayed) returns how the replay
    /// went.
    ///
    /// The names of actors, and who has created each channel, are read from the file `.names`
    /// beside the journal. Without it, channels aren't found again, and nothing is ordered.
    ///
    /// The variable `YOVANELUM_REPLAY_STOP=3` stops the replay before call 3 in a native debugger,
    /// in the thread that makes it. While a debugger holds all threads, the time in which a call
    /// has to come stands still. Without a debugger, one line says so.
    ///
    /// Timers, random numbers, other channels and all else that the journal does not have are not
    /// brought back.
    ///
    /// [`for_test`](Recorder::for_test) replays the journal that the environment variable
    /// `YOVANELUM_REPLAY` names, without an edit of the test.
    ///
    /// # Errors
    ///
    /// Returns an error if one of the two files cannot be read, or is not a journal or its names.
    ///
    /// # Examples
    ///
    /// Two threads send, and which of them sends first is a matter of luck. In the replay it is the
    /// same one:
    ///
    /// ```
    /// use std::{env, fs, process, thread};
    /// use yovanelum::{Recorder, broadcast};
    ///
    /// fn first_of_two(recorder: &Recorder) -> &'static str {
    ///     let _entered = recorder.enter();
    ///     let (bids, mut auction) = broadcast::channel(4);
    ///     let bidders = ["Ann", "Bob"].map(|name| {
    ///         let bids = bids.clone();
    ///         let bidder = thread::Builder::new().name(name.to_string());
    ///         bidder.spawn(move || drop(bids.send(name))).unwrap()
    ///     });
    ///     bidders.map(|bidder| bidder.join().unwrap());
    ///     auction.try_recv().unwrap()
    /// }
    ///
    /// let path = env::temp_dir().join(format!("first_of_two-{}.journal", process::id()));
    /// let recorder = Recorder::new();
    /// let first = first_of_two(&recorder);
    /// recorder.save(&path)?;
    /// for _ in 0..10 {
    ///     let recorder = Recorder::replay(&path)?;
    ///     assert_eq!(first_of_two(&recorder), first);
    ///     assert!(recorder.replayed().unwrap().is_in_order());
    /// }
    /// # fs::remove_file(path.with_extension("names"))?;
    /// # fs::remove_file(&path)?;
    /// # Ok::<(), std::io::Error>(())
    /// ```
    pub fn replay(path: impl AsRef<Path>) -> io::Result<Recorder> {
        let mut shared = Shared::new(false);
        let gate = replay::open(path.as_ref(), shared.id)?;
        let actors = gate.actors();
        shared.follow(gate, actors);
        Ok(Recorder::with(Arc::new(shared)))
    }

    /// Returns how the replay of a journal has gone so far, or `None` if this recorder replays
    /// none.
    ///
    /// # Examples
    ///
    /// ```
    /// use yovanelum::Recorder;
    ///
    /// assert!(Recorder::new().replayed().is_none());
    /// ```
    ///
    /// [`Replayed`] has an example of a replay.
    pub fn replayed(&self) -> Option<Replayed> {
        self.0.gate().map(|gate| gate.outcome())
    }

    /// Creates the recorder of the test with this name. It replays the journal that the variable
    /// names, if that is one of this test.
    ///
    /// # Panics
    ///
    /// Panics if the journal can't be read.
    pub(super) fn of_test(name: &str) -> Recorder {
        let Some(named) = NamedJournal::by_variable() else {
            return Recorder::new();
        };
        let path = &named.path;
        if !named.is_of(name) || named.nth() != begun(name) {
            say(&format!(
                "{name} isn't replayed, since {REPLAY} names another journal: {}",
                path.display()
            ));
            return Recorder::new();
        }
        // A debugger stops at a call of the journal, which the schedule beside it doesn't know.
        let followed = if replay::is_stop_wanted() {
            Ok(false)
        } else {
            explore::follow(path)
        };
        let recorder = followed.and_then(|is_followed| {
            if is_followed {
                Ok(Recorder::new())
            } else {
                Recorder::replay(path)
            }
        });
        recorder.unwrap_or_else(|error| match error.kind() {
            io::ErrorKind::InvalidInput => panic!("yovanelum: {error}"),
            _ => panic!("yovanelum: {REPLAY} names no journal: {error}"),
        })
    }

    /// Says that the test with this name isn't replayed, if the variable names its journal and this
    /// recorder replays none.
    pub(super) fn say_if_not_replayed(&self, name: &str) {
        // A schedule beside the journal is followed in its place.
        if self.0.turns.is_none()
            && explore::followed().is_none()
            && NamedJournal::by_variable()
                .is_some_and(|named| named.is_of(name) && named.nth() == begun(name))
        {
            say(&format!(
                "{name} isn't replayed, though {REPLAY} names its journal: recorders of `Recorder::for_test` and `Recorder::replay` do"
            ));
        }
    }
}

impl Shared {
    /// Returns the gate of the journal that is replayed, if one is.
    pub(super) fn gate(&self) -> Option<Arc<Gate>> {
        let replayed = self.turns.as_ref();
        replayed.and_then(|_| replay::gate_of_recorder(self.id))
    }

    /// Returns where the replay whose run this is left the order that it followed, if it has. Of a
    /// window, whose calls have other stamps, it isn't known since which call.
    pub(super) fn left_replay(&self, run: &Run, names: &Sidecar) -> Option<LeftReplay> {
        let Some(gate) = self.gate() else {
            return explore::left();
        };
        let (in_order, divergence) = gate.left()?;
        let made_by = &names.matching.made_by;
        let is_ordered = |channel: u32| {
            let maker = made_by.get(&channel.into());
            maker.is_some_and(|maker| gate.orders(maker))
        };
        let ordered = run
            .entries()
            .filter(|(_, entry)| is_ordered(entry.channel))
            .map(|(_, entry)| entry.stamp);
        let since = ordered.take(in_order).last().unwrap_or(0);
        let file = gate.path().file_name().unwrap_or_default();
        Some(LeftReplay {
            file: file.to_string_lossy().into(),
            since: Some(since).filter(|_| names.window.is_none()),
            text: divergence.text,
        })
    }

    /// Ends the replay of a test, if it is one, and says how it went.
    pub(super) fn end_replay(&self, test: &TestRun, has_failed: bool) {
        if let Some(turns) = &self.turns {
            let panics = test.panics();
            turns.conclude(if has_failed {
                TestEnd::Failed(&panics)
            } else {
                TestEnd::Passed
            });
        }
        let is_replay = self.turns.is_some() || explore::followed().is_some();
        if is_replay && self.has_nothing() {
            say(&test.nothing_line());
        }
    }
}

/// The journal that the variable names, and the test that it is of if the names beside it say so.
struct NamedJournal {
    path: PathBuf,
    test: Option<TestId>,
}

impl NamedJournal {
    /// Returns the journal, if the variable is set. It is looked for once.
    fn by_variable() -> Option<&'static NamedJournal> {
        static NAMED: OnceLock<Option<NamedJournal>> = OnceLock::new();
        let find = || {
            let path = found(PathBuf::from(env::var_os(REPLAY)?));
            let test = test_beside(&path);
            Some(NamedJournal { path, test })
        };
        NAMED.get_or_init(find).as_ref()
    }

    /// How many recorders with its name the thread of its test had made before.
    fn nth(&self) -> u64 {
        self.test.as_ref().map_or(0, |test| test.nth)
    }

    /// Whether it is one of the test with this name in this program.
    fn is_of(&self, name: &str) -> bool {
        let Some(test) = &self.test else {
            return is_journal_of(&self.path, name);
        };
        let program = Program::this();
        // Where a program doesn't know what it is, its tests are known by their names.
        let is_same = |known: &str, of_program: Option<&str>| {
            known.is_empty() || of_program.is_none_or(|of_program| of_program == known)
        };
        let target = Some(program.target.name.as_str()).filter(|_| program.package.is_some());
        test.name == name
            && is_same(&test.package, program.package.as_deref())
            && is_same(&test.target, target)
    }
}

/// Whether a journal with this path, which has no names that say so, is one of the test with this
/// name, or of a replay of it.
fn is_journal_of(path: &Path, name: &str) -> bool {
    let stem = path.file_stem().unwrap_or_default().to_string_lossy();
    // Before there were folders, a `/` was written as `_`.
    let names = [file_name(name), name.replace('/', "_")];
    let mut rests = names
        .iter()
        .filter_map(|name| stem.strip_prefix(name.as_str()));
    rests.any(|rest| is_end_of_file_name(&rest.replace(REPLAYED, "")))
}

/// Whether this is what follows the name of a test in a file's: nothing, or the number of one of
/// several processes.
fn is_end_of_file_name(rest: &str) -> bool {
    let number = rest.strip_prefix('~').map(str::parse::<usize>);
    rest.is_empty() || matches!(number, Some(Ok(_)))
}

/// Returns the path of a file. A relative one may be meant from the folder of the workspace, while
/// a test runs in that of its package.
fn found(path: PathBuf) -> PathBuf {
    let here = env::current_dir().unwrap_or_default();
    let above = here.ancestors().map(|folder| folder.join(&path));
    let found = above.into_iter().find(|path| path.exists());
    found.unwrap_or(path)
}

#[cfg(test)]
mod tests {
    use super::*;

    #[test]
    fn a_journal_is_of_the_test_whose_name_it_has() {
        let is_of = |file: &str| is_journal_of(&Path::new("target/yovanelum").join(file), "a/test");
        assert!(is_of("a%2Ftest.journal"));
        assert!(is_of("a_test.journal"));
        assert!(is_of("a_test.replayed.journal"));
        assert!(is_of("a_test.replayed.replayed.journal"));
        assert!(is_of("a%2Ftest~2.journal"));
        assert!(is_of("a%2Ftest.replayed~12.journal"));
        assert!(!is_of("a%2Ftest~.journal"));
        assert!(!is_of("a_test_too.journal"));
        assert!(!is_of("another.journal"));
    }

    #[test]
    #[cfg_attr(target_family = "wasm", ignore = "WebAssembly names no program")]
    fn a_journal_is_of_the_test_that_its_names_say() {
        let named = |package: &str, target: &str, name: &str| NamedJournal {
            path: PathBuf::from("x/downloaded.journal"),
            test: Some(TestId {
                package: package.to_string(),
                target: target.to_string(),
                name: name.to_string(),
                thread: String::new(),
                nth: 0,
                patched: false,
            }),
        };
        assert!(named("yovanelum", "yovanelum", "it ends").is_of("it ends"));
        assert!(named("", "", "it ends").is_of("it ends"));
        assert!(!named("yovanelum", "yovanelum", "it ends").is_of("it begins"));
        assert!(!named("shop", "yovanelum", "it ends").is_of("it ends"));
        assert!(!named("yovanelum", "bus", "it ends").is_of("it ends"));
    }
}
