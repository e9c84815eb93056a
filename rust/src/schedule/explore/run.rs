//! A run that is explored, in a process of its own, or one that follows a schedule.

use super::explorer::Offered;
use super::order::{Order, OrderKind};
use super::random::hashed;
use super::schedule::{RunEnd, Schedule, WaitingTask};
use super::state::WaitPlaces;
use super::{Explorer, helper, pin};
use crate::channels::actors::is_over_facade;
use crate::channels::channel::Known;
use crate::channels::lock::lock;
use crate::channels::recorder::{Recorder, Shared, is_any_of_none};
use crate::channels::standard_error::say;
use crate::channels::turns::{self, Explored};
use crate::channels::whereabouts::PlaceNumber;
use crate::schedule::replay;
use std::path::{Path, PathBuf};
use std::sync::{Arc, Mutex, OnceLock, Weak};
use std::time::Duration;
use std::{env, fs, io, process};
use yovanelum_record::listed::PushAll;
use yovanelum_record::numbered::NumberMap;
use yovanelum_record::sidecar::LeftReplay;
use yovanelum_record::sorting::sort_by_key;

/// By what order a run is made.
pub(crate) const ORDER: &str = "YOVANELUM_EXPLORE_ORDER";

/// The process that runs it. Those that the test starts have the variables too, and are no runs.
pub(crate) const SESSION: &str = "YOVANELUM_EXPLORE_SESSION";

/// Where it writes its schedule.
pub(crate) const SCHEDULE: &str = "YOVANELUM_EXPLORE_SCHEDULE";

/// The folder in which it writes the files of its test, as cargo's target folder.
pub(crate) const TARGET: &str = "YOVANELUM_EXPLORE_TARGET";

/// The number of the processor that it runs on.
pub(crate) const PROCESSOR: &str = "YOVANELUM_EXPLORE_PROCESSOR";

/// How many microseconds each step takes at least.
pub(crate) const PAUSE: &str = "YOVANELUM_EXPLORE_PAUSE";

/// Whether whoever stands goes on in turn, so that nobody waits for long.
pub(crate) const FAIR: &str = "YOVANELUM_EXPLORE_FAIR";

/// Whether a run that fails says nothing but how.
pub(crate) const QUIET: &str = "YOVANELUM_EXPLORE_QUIET";

/// Whether time may be chosen.
const TIME: &str = "YOVANELUM_EXPLORE_TIME";

/// Whether calls of tokio's own are chosen.
pub(crate) const POINTS: &str = "YOVANELUM_EXPLORE_POINTS";

/// The run of this process, if there is one.
static RUN: OnceLock<ExploredRun> = OnceLock::new();

struct ExploredRun {
    explorer: Arc<Explorer>,
    /// Where the schedule is written.
    schedule: Option<PathBuf>,
    /// The schedule that a replay follows, with its number of steps.
    followed: Option<(PathBuf, usize)>,
    /// The first step that isn't the schedule's, and the stamp of the last call before it.
    left: OnceLock<(u32, u64)>,
    test: Mutex<Option<TestOfRun>>,
}

/// The test of a run.
struct TestOfRun {
    recorder: Weak<Shared>,
    report: TestReport,
}

/// What reports a test that hangs, in which these tasks wait.
type ReportHung = dyn Fn(&[WaitingTask]) + Send;

/// What a test says of itself.
pub(crate) struct TestReport {
    /// Writes its files where it hangs, and says who waits, of these tasks too.
    pub(crate) hung: Box<ReportHung>,
    /// Says why nothing may have been recorded.
    pub(crate) why_nothing: fn() -> String,
    /// Says what a task waits for at a place, and where that is in the source.
    pub(crate) name_place: fn(PlaceNumber) -> NamedPlace,
}

/// A place where a task waits.
pub(crate) struct NamedPlace {
    /// What it waits for, as `Mutex::lock`, if that is known.
    pub(crate) what: Option<String>,
    pub(crate) at: Option<(String, u32)>,
}

/// Whether the run of this process is one of a search, and not a replay.
pub(crate) fn is_run_of_search() -> bool {
    RUN.get().is_some_and(|run| run.followed.is_none())
}

/// Whether this process is one of those that are explored, whose run may have yet to begin.
pub(crate) fn is_run_asked_for() -> bool {
    env::var_os(ORDER).is_some() && is_of_session()
}

/// Begins a run, if this process is one of those that are explored. Returns `true` if it is.
pub(crate) fn begin() -> bool {
    if RUN.get().is_some() {
        return true;
    }
    let Some(text) = env::var(ORDER).ok().filter(|_| is_of_session()) else {
        return false;
    };
    let order = Order::read(&text).unwrap_or_else(|| panic!("yovanelum: {ORDER} is `{text}`"));
    let processor = env::var(PROCESSOR).ok().and_then(|text| text.parse().ok());
    let begun = start(&order, processor, has_points(), |explorer| ExploredRun {
        explorer,
        schedule: env::var_os(SCHEDULE).map(PathBuf::from),
        followed: None,
        left: OnceLock::new(),
        test: Mutex::default(),
    });
    begun.unwrap_or_else(|error| panic!("yovanelum: {ORDER} is `{text}`: {error}"));
    true
}

/// Whether the process that has started this one is the session whose run it is.
pub(crate) fn is_of_session() -> bool {
    #[cfg(unix)]
    let is_parent = |id: u32| std::os::unix::process::parent_id() == id;
    #[cfg(not(unix))]
    let is_parent = |_: u32| true;
    let session = env::var(SESSION).ok().and_then(|id| id.parse().ok());
    session.is_none_or(is_parent)
}

fn start(
    order: &Order,
    processor: Option<usize>,
    points: bool,
    run: impl FnOnce(Arc<Explorer>) -> ExploredRun,
) -> io::Result<()> {
    pin::pin_to(processor.unwrap_or_default());
    let time = is_time_offered();
    let explorer = Explorer::new(order, Offered { time, points })?;
    let run = RUN.get_or_init(|| run(Arc::new(explorer)));
    turns::explore(Explored {
        turns: run.explorer.clone(),
        tasks: run.explorer.clone(),
        timers: run.explorer.clone(),
    });
    replay::hold_polls();
    helper::start(&run.explorer)
}

/// Whether time may be chosen.
///
/// # Panics
///
/// Panics if the variable has another value than it may have.
pub(crate) fn is_time_offered() -> bool {
    !is_set_to(TIME, "never")
}

/// Whether calls of tokio's own are chosen.
///
/// # Panics
///
/// Panics if the variable has another value than it may have.
pub(crate) fn has_points() -> bool {
    is_set_to(POINTS, "all")
}

/// Whether a variable has the one value that it may have.
fn is_set_to(variable: &str, value: &str) -> bool {
    let text = env::var(variable).ok().filter(|text| !text.is_empty());
    match text {
        None => false,
        Some(text) if text == value => true,
        Some(other) => panic!("yovanelum: {variable} is `{other}`, and not `{value}`"),
    }
}

/// Whether whoever stands goes on in turn.
pub(super) fn is_fair() -> bool {
    env::var_os(FAIR).is_some() && is_of_session()
}

/// Whether this run says nothing but how it fails.
pub(crate) fn is_quiet() -> bool {
    env::var_os(QUIET).is_some() && is_of_session()
}

/// Returns how long each step takes at least.
pub(super) fn pause() -> Duration {
    let text = env::var(PAUSE).ok().filter(|_| is_of_session());
    let microseconds = text.and_then(|text| text.parse().ok());
    Duration::from_micros(microseconds.unwrap_or(0))
}

/// Follows the schedule beside this journal, if there is one of the same run. Returns `true` if
/// there is.
///
/// # Errors
///
/// Returns an error if the file can't be read, or is no schedule.
pub(crate) fn follow(journal: &Path) -> io::Result<bool> {
    let path = journal.with_extension("schedule");
    let schedule = match Schedule::of_file(&path) {
        Ok(schedule) => schedule,
        Err(error) if error.kind() == io::ErrorKind::NotFound => return Ok(false),
        Err(error) => return Err(io::Error::other(format!("{}: {error}", path.display()))),
    };
    let text = fs::read_to_string(journal)?;
    if schedule.journal != Some(hash_of(&text)) || RUN.get().is_some() {
        return Ok(false);
    }
    let order = Order {
        kind: OrderKind::File(path.clone()),
        has_timers: Order::read(&schedule.order).is_some_and(|order| order.has_timers),
    };
    let followed = Some((path, schedule.steps.len()));
    start(&order, None, schedule.has_points, |explorer| ExploredRun {
        explorer,
        schedule: None,
        followed,
        left: OnceLock::new(),
        test: Mutex::default(),
    })?;
    Ok(true)
}

/// Returns the hash of a journal by which its schedule knows it.
pub(crate) fn hash_of(journal: &str) -> u64 {
    hashed(0, journal)
}

/// Returns the path of the schedule that this process follows in place of a journal.
pub(crate) fn followed() -> Option<&'static Path> {
    let (path, _) = RUN.get()?.followed.as_ref()?;
    Some(path)
}

/// Notes the first step that isn't that of the schedule which is followed.
pub(super) fn note_left(step: u32) {
    let Some(run) = RUN.get() else { return };
    let test = lock(&run.test);
    let recorder = test.as_ref().and_then(|test| test.recorder.upgrade());
    drop(test);
    let since = recorder.map_or(0, |recorder| recorder.last());
    let _ = run.left.set((step, since));
}

/// Returns the file's name of the schedule that this process follows, where the run left it in
/// words, and the stamp of the last call before that, if it has.
pub(crate) fn left() -> Option<LeftReplay> {
    let run = RUN.get()?;
    let (path, steps) = run.followed.as_ref()?;
    let (step, since) = *run.left.get()?;
    (step < *steps as u32).then(|| LeftReplay {
        file: path
            .file_name()
            .unwrap_or_default()
            .to_string_lossy()
            .into(),
        since: Some(since),
        text: diverges_in_words(step, *steps),
    })
}

fn diverges_in_words(step: u32, steps: usize) -> String {
    format!("diverges at step {} of the schedule's {steps}", step + 1)
}

/// Returns the folder in which this process writes the files of its test, in place of cargo's
/// target folder, if it is one that is explored.
pub(crate) fn target_folder() -> Option<PathBuf> {
    env::var_os(TARGET)
        .filter(|_| is_of_session())
        .map(PathBuf::from)
}

/// Returns the channels of the test as they are, without those that are locked.
pub(super) fn channels() -> Vec<Known> {
    let test = RUN.get().map(|run| lock(&run.test));
    let recorder = test.and_then(|test| test.as_ref()?.recorder.upgrade());
    recorder.map_or_else(Vec::new, |recorder| recorder.known_channels())
}

/// Notes the recorder of the test, and what writes its files if it hangs.
pub(crate) fn watch(recorder: Weak<Shared>, report: TestReport) {
    if let Some(run) = RUN.get() {
        *lock(&run.test) = Some(TestOfRun { recorder, report });
    }
}

/// Ends the run with its test, and writes its schedule, or says how it was followed.
pub(crate) fn end(recorder: &Recorder, has_failed: bool, why_nothing: fn() -> String) {
    let Some(run) = RUN.get() else { return };
    let end = if has_failed {
        RunEnd::Failed
    } else {
        RunEnd::Passed
    };
    let (mut schedule, places) = run.explorer.end(end);
    schedule.note(&recorder.0, why_nothing);
    if has_failed && run.schedule.is_some() && !is_quiet() {
        run.name_places(&mut schedule, &places);
    }
    run.write(&schedule);
    if let Some((path, steps)) = &run.followed {
        let name = path.file_name().unwrap_or_default().to_string_lossy();
        say(&format!("replay of {name}: {}", said(&schedule, *steps)));
    }
}

/// Says how a schedule of `steps` steps was followed.
fn said(followed: &Schedule, steps: usize) -> String {
    let end = match followed.end {
        RunEnd::Passed => "the test passed",
        RunEnd::Failed => "the test failed",
        RunEnd::Hung => "the test hangs",
    };
    match followed.diverged {
        Some(at) if (at as usize) < steps => format!("{}; {end}", diverges_in_words(at, steps)),
        _ if followed.steps.len() < steps => {
            format!(
                "ended after {} of the schedule's {steps} steps; {end}",
                followed.steps.len()
            )
        }
        _ => format!("all {steps} steps of the schedule in their order; {end}"),
    }
}

impl Schedule {
    /// Adds what is known of the test's recorder: the names of its channels, or why it has none.
    fn note(&mut self, recorder: &Shared, why_nothing: fn() -> String) {
        self.channels = recorder.channel_names();
        self.was_busy &= !is_over_facade();
        // Polls are ordered also where the test has none of the two channels. Without the patch
        // it may have meant to record them.
        let is_for_polls = !self.steps.is_empty() && !is_any_of_none();
        let is_meant = is_for_polls && is_over_facade();
        self.nothing = (recorder.has_nothing() && !is_meant).then(why_nothing);
        self.polls_alone = self.nothing.is_some() && is_for_polls;
    }
}

impl ExploredRun {
    /// Names the places where tasks wait, and where they waited. That reads the symbols of the
    /// program, so it is only for a run that fails.
    fn name_places(&self, schedule: &mut Schedule, places: &WaitPlaces) {
        let test = lock(&self.test);
        let Some(name_place) = test.as_ref().map(|test| test.report.name_place) else {
            return;
        };
        drop(test);
        let mut known: NumberMap<PlaceNumber, NamedPlace> = NumberMap::new();
        let mut named = |place: &PlaceNumber| {
            let named = known.get_or_insert_with(*place, || name_place(*place));
            (named.what.clone(), named.at.clone())
        };
        for (step, place) in &places.of_steps {
            if let Some(step) = schedule.steps.get_mut(*step) {
                (step.waited_for, step.at) = named(place);
            }
        }
        for (who, place) in places.now.iter() {
            let (what, at) = named(place);
            schedule.waiting.push_all(what.map(|what| WaitingTask {
                what,
                at,
                who: who.into(),
            }));
        }
        sort_by_key(&mut schedule.waiting, |waiting| waiting.who.clone());
    }

    fn write(&self, schedule: &Schedule) {
        let written = self
            .schedule
            .as_ref()
            .map(|path| (path, fs::write(path, schedule.text())));
        if let Some((path, Err(error))) = written {
            say(&format!("{} isn't written: {error}", path.display()));
        }
    }
}

/// Ends the process, whose threads all wait forever: writes its files, and says who waits.
pub(super) fn end_hung(schedule: &mut Schedule, places: &WaitPlaces) -> ! {
    schedule.end = RunEnd::Hung;
    if let Some(run) = RUN.get() {
        if !is_quiet() {
            run.name_places(schedule, places);
        }
        if let Some(test) = &*lock(&run.test) {
            if let Some(recorder) = test.recorder.upgrade() {
                schedule.note(&recorder, test.report.why_nothing);
            }
            if !is_quiet() {
                (test.report.hung)(&schedule.waiting);
            }
        }
        run.write(schedule);
        if let Some((path, steps)) = &run.followed {
            let name = path.file_name().unwrap_or_default().to_string_lossy();
            say(&format!("replay of {name}: {}", said(schedule, *steps)));
        }
    }
    // As a test's program does that has failed.
    process::exit(101);
}
