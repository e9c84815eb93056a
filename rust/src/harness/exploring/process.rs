//! The program of the test, which is run again for each run, as a process.

use super::answer::{self, ANSWER};
use super::settings::RUNS;
use crate::channels::atomic::AtomicU64;
use crate::channels::lock::lock;
use crate::schedule::explore::{
    Asked, FAIR, ORDER, Order, PAUSE, PROCESSOR, QUIET, RunEnd, SCHEDULE, SESSION, Schedule,
    Sleeper, TARGET, Threads,
};
use std::fs::File;
use std::io;
use std::path::{Path, PathBuf};
use std::process::{Child, Command, ExitStatus, Stdio};
use std::sync::atomic::Ordering;
use std::sync::{Arc, Mutex, Weak};
use std::time::{Duration, Instant};
use std::{env, fs, process, thread};
use yovanelum_record::listed::{IntoList, Keep, PushAll};
use yovanelum_record::question::Meets;

/// How long a run takes at most, and how many times as long as one that has passed. On a busy
/// machine the same run may take some times longer.
pub(super) const TIME_OF_RUN: Duration = Duration::from_secs(60);
const LEAST_TIME_OF_RUN: Duration = Duration::from_secs(10);
const TIMES_OF_PASSED: u32 = 20;

/// How long all threads of a replay wait forever before it is said to hang.
const HUNG_AFTER: Duration = Duration::from_millis(500);

/// How often processes are looked after.
const BETWEEN_LOOKS: Duration = Duration::from_millis(50);

/// How long is waited at least and at most before it is looked again whether a process has ended,
/// and as which part of the time that it has run.
const SHORTEST_WAIT: Duration = Duration::from_micros(100);
const LONGEST_WAIT: Duration = Duration::from_millis(10);
const PART_OF_RUN: u32 = 16;

/// The variable that names the journal which a test replays.
const REPLAY: &str = "YOVANELUM_REPLAY";

/// The program of a test, and the folder for what its runs write.
pub(super) struct TestProgram {
    path: PathBuf,
    /// What its harness is told, so that it runs the test alone.
    arguments: Vec<String>,
    pub(super) folder: PathBuf,
    next: AtomicU64,
    running: Arc<Mutex<Vec<Weak<Running>>>>,
    /// When no run may go on any more, once that is known.
    end: Mutex<Option<Instant>>,
    /// How long the longest run took that has passed.
    longest: Mutex<Option<Duration>>,
}

/// By what a run is made.
pub(super) enum By<'a> {
    Order(&'a Order),
    /// Each step takes so long at least.
    Slowed(&'a Order, Duration),
    /// Whoever stands goes on in turn.
    Fair(&'a Order),
    Journal(&'a Path),
}

/// What a run says that fails.
#[derive(Clone, Copy, PartialEq, Eq)]
pub(super) enum Says {
    /// Its report, with the files that it is of.
    All,
    /// How it fails. It takes less time.
    Failure,
}

/// What a run was.
#[derive(Debug)]
pub(super) struct Ran {
    pub(super) schedule: Option<Schedule>,
    pub(super) failure: Option<FailureMark>,
    /// What it says of the condition, if it is asked for one.
    pub(super) answer: Option<Meets>,
    /// The folder in which the files of a test that fails are, as in cargo's target folder.
    pub(super) target: PathBuf,
    /// What it has written to standard error.
    pub(super) said: String,
    /// Whether it was ended since the session's time was over, so that it says nothing.
    pub(super) is_cut: bool,
}

/// By what a failure is known again: where the first panic was, that all wait forever, or what the
/// process said last.
#[derive(Clone, Debug, PartialEq, Eq)]
pub(super) struct FailureMark(pub(super) String);

impl FailureMark {
    /// Whether the run passes, and meets the condition.
    pub(super) fn is_met(&self) -> bool {
        self.0 == MET
    }

    /// Whether the run had no end.
    pub(super) fn is_no_end(&self) -> bool {
        self.0 == NO_END
    }
}

/// A process that runs, and until when.
struct Running {
    child: Mutex<Child>,
    until: Instant,
    /// Whether it ends by itself where it hangs.
    knows_hangs: bool,
    was_ended: Mutex<Option<&'static str>>,
}

/// What stands in the place of a failure where the condition is met by a run that passes.
const MET: &str = "the condition is met";
const HANGS: &str = "everybody waits forever";
const NO_END: &str = "it has not ended in time";

impl TestProgram {
    /// This program, of which this test is run. Its runs write to this folder, which is created.
    ///
    /// # Errors
    ///
    /// Returns an error if the folder can't be created.
    pub(super) fn new(test: &str, folder: PathBuf) -> io::Result<TestProgram> {
        fs::create_dir_all(&folder)?;
        let mut arguments = vec![test.to_string(), "--exact".into(), "--nocapture".into()];
        let is_ignored =
            |argument: &String| argument == "--ignored" || argument == "--include-ignored";
        arguments.push_all(env::args().filter(is_ignored));
        let running = Arc::<Mutex<Vec<Weak<Running>>>>::default();
        let watched = Arc::downgrade(&running);
        let watcher = thread::Builder::new().name("yovanelum-explore".to_string());
        let watch: Box<dyn FnOnce() + Send> = Box::new(move || look_after(&watched));
        watcher.spawn(watch)?;
        Ok(TestProgram {
            path: env::current_exe()?,
            arguments,
            folder,
            next: AtomicU64::new(0),
            running,
            end: Mutex::default(),
            longest: Mutex::default(),
        })
    }

    /// Ends all runs then.
    pub(super) fn set_end(&self, end: Option<Instant>) {
        *lock(&self.end) = end;
    }

    /// Returns how long a run takes at most: by how long those took that have passed, if there are
    /// any.
    pub(super) fn time_of_run(&self) -> Duration {
        lock(&self.longest).map_or(TIME_OF_RUN, |longest| {
            (longest * TIMES_OF_PASSED).clamp(LEAST_TIME_OF_RUN, TIME_OF_RUN)
        })
    }

    /// Runs the test, for this long at most, and tells how it fails alone.
    ///
    /// # Errors
    ///
    /// Returns an error if the process can't be started, or if the time of the session is over.
    pub(super) fn try_run(&self, by: &By<'_>, processor: usize, most: Duration) -> io::Result<Ran> {
        let ran = self.run(by, Says::Failure, processor, most)?;
        let _ = fs::remove_dir_all(&ran.target);
        if ran.is_cut {
            return Err(time_is_over());
        }
        Ok(ran)
    }

    /// Runs the test, for this long at most.
    ///
    /// # Errors
    ///
    /// Returns an error if the process can't be started, or if the time of the session is over.
    pub(super) fn run(
        &self,
        by: &By<'_>,
        says: Says,
        processor: usize,
        most: Duration,
    ) -> io::Result<Ran> {
        let end = *lock(&self.end);
        let left = end.map(|end| end.saturating_duration_since(Instant::now()));
        if left.is_some_and(|left| left.is_zero()) {
            return Err(time_is_over());
        }
        let is_less = left.is_some_and(|left| left < most);
        let (began, most) = (Instant::now(), left.unwrap_or(most).min(most));
        let number = self.next.fetch_add(1, Ordering::Relaxed);
        let target = self.folder.join(number.to_string());
        let path = self.folder.join(format!("{number}.schedule"));
        let answer = path.with_extension("answer");
        let stderr = path.with_extension("stderr");
        let mut command = Command::new(&self.path);
        command
            .args(&self.arguments)
            .env("RUST_TEST_THREADS", "2")
            .env(TARGET, &target)
            .env(SESSION, process::id().to_string())
            .env(ANSWER, &answer)
            .env_remove(RUNS)
            .env_remove("YOVANELUM_KEEP")
            .env_remove(REPLAY)
            .envs((says == Says::Failure).then_some(("RUST_BACKTRACE", "0")))
            .envs((says == Says::Failure).then_some((QUIET, "1")))
            .stdin(Stdio::null())
            .stdout(Stdio::null())
            // A process that outlives the test has it too, and would keep a pipe open.
            .stderr(File::create(&stderr)?);
        let order = match by {
            By::Order(order) => Some(order),
            By::Slowed(order, pause) => {
                command.env(PAUSE, pause.as_micros().to_string());
                Some(order)
            }
            By::Fair(order) => {
                command.env(FAIR, "1");
                Some(order)
            }
            By::Journal(journal) => {
                command.env(REPLAY, journal);
                None
            }
        };
        if let Some(order) = order {
            let processor = first_processor() + processor;
            command
                .env(ORDER, order.to_string())
                .env(SCHEDULE, &path)
                .env(PROCESSOR, processor.to_string());
        }
        let (status, was_ended) = self.waited_for(command, order.is_some(), most)?;
        let said = String::from_utf8_lossy(&fs::read(&stderr)?).into_owned();
        let schedule = Schedule::of_file(&path).ok();
        let said_of = answer::of_file(&answer);
        for path in &[path, answer, stderr] {
            let _ = fs::remove_file(path);
        }
        let failure = failure(status, was_ended, &said, schedule.as_ref());
        let is_met = matches!(said_of, Some(Meets::Met(_)));
        if failure.is_none() {
            let mut longest = lock(&self.longest);
            *longest = (*longest).max(Some(began.elapsed()));
        }
        Ok(Ran {
            schedule,
            failure: failure.or(is_met.then(|| FailureMark(MET.to_string()))),
            answer: said_of,
            target,
            said,
            is_cut: is_less && was_ended == Some(NO_END),
        })
    }

    /// Runs a command until its process ends. Returns its status, and why it was ended, if it was.
    fn waited_for(
        &self,
        mut command: Command,
        knows_hangs: bool,
        most: Duration,
    ) -> io::Result<(ExitStatus, Option<&'static str>)> {
        let child = command.spawn()?;
        let began = Instant::now();
        let running = Arc::new(Running {
            child: Mutex::new(child),
            until: began + most,
            knows_hangs,
            was_ended: Mutex::default(),
        });
        lock(&self.running).push(Arc::downgrade(&running));
        loop {
            // Who ends it locks it too, so nobody waits here while it is locked.
            if let Some(status) = lock(&running.child).try_wait()? {
                return Ok((status, *lock(&running.was_ended)));
            }
            let wait = began.elapsed() / PART_OF_RUN;
            thread::sleep(wait.clamp(SHORTEST_WAIT, LONGEST_WAIT));
        }
    }
}

fn time_is_over() -> io::Error {
    io::Error::new(io::ErrorKind::TimedOut, "the time of the session is over")
}

/// Says in one line how a run has failed: where, and with what text.
pub(super) fn first_words(ran: &Ran) -> String {
    let Some(FailureMark(mark)) = &ran.failure else {
        return String::new();
    };
    let mut lines = ran.said.lines();
    let is_panic = |line: &str| line.ends_with(&format!(" panicked at {mark}"));
    match lines.by_ref().find(|line| is_panic(line)).and(lines.next()) {
        Some(text) => format!("{mark} {text}"),
        None => mark.clone(),
    }
}

/// Returns the number of the processor that the first runs of this process use. Sessions beside
/// each other begin at different ones.
fn first_processor() -> usize {
    process::id() as usize
}

impl Drop for TestProgram {
    fn drop(&mut self) {
        let _ = fs::remove_dir_all(&self.folder);
    }
}

/// Returns how a run has failed, if it has.
fn failure(
    status: ExitStatus,
    was_ended: Option<&str>,
    said: &str,
    schedule: Option<&Schedule>,
) -> Option<FailureMark> {
    let is_hung = schedule.is_some_and(|schedule| schedule.end == RunEnd::Hung);
    if is_hung || was_ended.is_some() {
        return Some(FailureMark(was_ended.unwrap_or(HANGS).to_string()));
    }
    if status.success() {
        return None;
    }
    let mut lines = said.lines();
    let panic = lines.find_map(|line| Some(line.split_once(" panicked at ")?.1));
    let error = || said.lines().find(|line| line.starts_with("Error: "));
    let text = panic.or_else(error).map(str::to_string);
    Some(FailureMark(text.unwrap_or_else(|| status.to_string())))
}

/// Ends processes that run too long, and replays that hang, as long as there is a session.
fn look_after(running: &Weak<Mutex<Vec<Weak<Running>>>>) {
    let mut quiet: Vec<(u32, Instant)> = Vec::new();
    while let Some(all) = running.upgrade() {
        let mut all = lock(&all);
        all.keep(|running| running.strong_count() > 0);
        let alive: Vec<_> = all.iter().filter_map(Weak::upgrade).listed();
        drop(all);
        quiet.keep(|(id, _)| alive.iter().any(|running| running.id() == *id));
        for running in alive {
            running.look_after(&mut quiet);
        }
        thread::sleep(BETWEEN_LOOKS);
    }
}

impl Running {
    fn id(&self) -> u32 {
        lock(&self.child).id()
    }

    fn look_after(&self, quiet: &mut Vec<(u32, Instant)>) {
        if Instant::now() >= self.until {
            return self.end(NO_END);
        }
        let id = self.id();
        if self.knows_hangs || !waits_forever(id) {
            return quiet.keep(|(other, _)| *other != id);
        }
        match quiet.iter().find(|(other, _)| *other == id) {
            Some((_, since)) if since.elapsed() >= HUNG_AFTER => self.end(HANGS),
            Some(_) => (),
            None => quiet.push((id, Instant::now())),
        }
    }

    fn end(&self, why: &'static str) {
        *lock(&self.was_ended) = Some(why);
        let _ = lock(&self.child).kill();
    }
}

/// Whether all threads of a process wait for something else than time.
fn waits_forever(id: u32) -> bool {
    let mut threads = Threads::of(Path::new(&format!("/proc/{id}")));
    if threads.is_by_clock() {
        return false;
    }
    let sleepers = threads.sleepers(Duration::ZERO, &|_| Asked::Sleeps);
    // The main thread is the harness, which waits for the test.
    let is_of_test = |sleeper: &&Sleeper| sleeper.thread != id;
    sleepers.is_some_and(|sleepers| {
        let mut of_test = sleepers.iter().filter(is_of_test).peekable();
        of_test.peek().is_some() && !of_test.any(Sleeper::is_timed)
    })
}

#[cfg(all(test, not(any(target_family = "wasm", miri))))]
mod tests {
    use super::*;

    #[test]
    fn a_run_that_does_not_end_is_ended_and_says_so() {
        if env::var_os(SESSION).is_some() {
            loop {
                thread::sleep(Duration::from_secs(60));
            }
        }
        let (_, here) = module_path!().split_once("::").unwrap();
        let test = format!("{here}::a_run_that_does_not_end_is_ended_and_says_so");
        let program = TestProgram::new(&test, crate::temporary::path("no-end")).unwrap();
        let order = Order::read("s").unwrap();
        let by = By::Order(&order);
        let ran = program.try_run(&by, 0, Duration::from_millis(100));
        assert_eq!(ran.unwrap().failure, Some(FailureMark(NO_END.to_string())));
        // Where the time of the session is over before, nobody knows.
        program.set_end(Some(Instant::now() + Duration::from_millis(100)));
        let ran = program.try_run(&by, 0, TIME_OF_RUN);
        assert_eq!(ran.unwrap_err().kind(), io::ErrorKind::TimedOut);
    }
}
