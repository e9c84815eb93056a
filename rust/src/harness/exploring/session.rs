//! The test's own process, which runs its program again and again.

mod by_time;

use super::budget::SessionBudget;
use super::counts::{AskedCondition, Counts};
use super::passed::PassedRuns;
use super::process::{By, FailureMark, Ran, Says, TestProgram, first_words};
use super::progress::Progress;
use super::search::{Search, Task};
use super::settings::{From, RUNS, Settings};
use crate::channels::lock::lock;
use crate::channels::standard_error::say;
use crate::harness::files;
use crate::harness::program::Program;
use std::process::Command;
use std::sync::atomic::{AtomicBool, Ordering};
use std::sync::{Mutex, PoisonError, RwLock};
use std::{env, fs, io, panic, process, thread};
use yovanelum_record::by_text::TextSet;
use yovanelum_record::listed::IntoList;
use yovanelum_record::question::Meets;

/// How many runs tell that nothing is recorded.
const TELLING_RUNS: u64 = 5;

/// What the names of a runtime's threads begin with, which are no test's.
const WORKERS: [&str; 2] = ["tokio-runtime-worker", "tokio-rt-worker"];

/// Explores the test of this name, if the variable says so, and it wasn't explored before.
///
/// # Panics
///
/// Panics if a failing order is found, or if the test can't be run.
pub(super) fn explore(name: &str) {
    static EXPLORED: Mutex<TextSet> = Mutex::new(TextSet::new());
    let Some(settings) = Settings::of_variables() else {
        return;
    };
    let Some(test) = path_of_test(name) else {
        return say(&format!(
            "{name} isn't explored, since it isn't known which test of its program it is: run it with `--exact`"
        ));
    };
    // One test at a time: each uses as many processors as it may.
    let mut explored = lock(&EXPLORED);
    if !explored.insert(&test) {
        return;
    }
    files::begin();
    let session = Session::new(name, &test, settings);
    let session =
        session.unwrap_or_else(|error| panic!("yovanelum: {name} isn't explored: {error}"));
    let has_failed = session.run();
    // The next session has the same folder.
    drop(session);
    drop(explored);
    if has_failed {
        // What there is to say is said, so no hook says more.
        panic::resume_unwind(Box::new("a failing order was found"));
    }
}

/// Does this work on as many threads, each of which is told its number, until all have ended.
pub(super) fn on_threads(count: usize, work: &(dyn Fn(usize) + Sync)) {
    thread::scope(|scope| {
        for number in 0..count {
            scope.spawn(move || work(number));
        }
    });
}

/// Returns the path by which the harness knows the test that this thread runs.
fn path_of_test(name: &str) -> Option<String> {
    let thread = thread::current();
    let of_thread = thread
        .name()
        .filter(|name| *name != "main" && !WORKERS.iter().any(|worker| name.starts_with(worker)));
    if let Some(path) = of_thread {
        return Some(path.to_string());
    }
    let arguments: Vec<String> = env::args().skip(1).listed();
    let mut names = arguments.iter().filter(|word| !word.starts_with('-'));
    match (names.next(), names.next()) {
        (Some(path), None) if arguments.iter().any(|word| word == "--exact") => Some(path.clone()),
        _ => listed(name),
    }
}

/// Returns the path of the only test of this program whose function has this name. A program
/// without a harness runs instead, and explores nothing.
fn listed(name: &str) -> Option<String> {
    let mut command = Command::new(env::current_exe().ok()?);
    let listed = command
        .env_remove(RUNS)
        .args(["--list", "--format", "terse"])
        .output()
        .ok()?;
    let listed = String::from_utf8_lossy(&listed.stdout).into_owned();
    let paths = listed
        .lines()
        .filter_map(|line| line.strip_suffix(": test"));
    let mut paths = paths.filter(|path| path.rsplit("::").next() == Some(name));
    paths
        .next()
        .filter(|_| paths.next().is_none())
        .map(str::to_string)
}

pub(super) struct Session {
    pub(super) name: String,
    pub(super) settings: Settings,
    pub(super) program: TestProgram,
    pub(super) search: Mutex<Search>,
    pub(super) counts: Mutex<Counts>,
    found: Mutex<Option<FoundRun>>,
    /// The first run that has failed by time, and not by its order.
    failed_by_time: Mutex<Option<FoundRun>>,
    /// What there is in the runs of what the condition names.
    there: Mutex<SeenNames>,
    pub(super) is_over: AtomicBool,
    /// What a run holds: for itself alone where nothing may run beside it.
    pub(super) room: RwLock<()>,
    pub(super) budget: SessionBudget,
    progress: Progress,
    /// What runs were that have passed.
    pub(super) passed: Mutex<PassedRuns>,
    /// Whether the first run is made, which has none beside it.
    is_first: AtomicBool,
}

/// The first run that fails.
pub(super) struct FoundRun {
    pub(super) task: Task,
    pub(super) ran: Ran,
    /// How many runs there were with it, and how long it took to find it.
    pub(super) runs: u64,
    pub(super) took: std::time::Duration,
}

/// What a run counts as.
#[derive(Clone, Copy, PartialEq, Eq)]
enum CountsAs {
    Run,
    /// It has failed by time, and not by its order.
    ByTime,
    /// It had no end, and has one where whoever stands goes on in turn.
    Endless,
}

impl FoundRun {
    fn in_words(&self) -> String {
        let (run, seconds) = (self.runs, self.took.as_secs_f64());
        let is_met = self.ran.failure.as_ref().is_some_and(FailureMark::is_met);
        let told = if is_met {
            format!("meets the condition ({seconds:.1} s)")
        } else {
            format!("failed ({seconds:.1} s): {}", first_words(&self.ran))
        };
        format!("run {run} {told}; its order is tried again")
    }
}

/// Whether there was anything of the condition's name in any run, and what else there was.
#[derive(Default)]
struct SeenNames {
    is_any: bool,
    is_answered: bool,
    names: TextSet,
}

impl Session {
    fn new(name: &str, test: &str, settings: Settings) -> io::Result<Session> {
        let target = &Program::this().target_folder;
        let folder = target.join(format!("exploring-{}", process::id()));
        let (program, budget) = (
            TestProgram::new(test, folder)?,
            SessionBudget::new(settings.seconds),
        );
        program.set_end(budget.end());
        Ok(Session {
            name: name.to_string(),
            program,
            budget,
            search: Mutex::new(Search::new(
                settings.runs,
                &settings.from,
                settings.condition.is_some(),
            )),
            there: Mutex::default(),
            counts: Mutex::default(),
            found: Mutex::default(),
            failed_by_time: Mutex::default(),
            is_over: AtomicBool::new(false),
            room: RwLock::default(),
            progress: Progress::new(name, settings.runs),
            passed: Mutex::default(),
            is_first: AtomicBool::new(true),
            settings,
        })
    }

    /// Runs the test by one order after the other. Returns `true` if it has failed by one.
    fn run(&self) -> bool {
        // The first run says what the others need to know.
        self.step(0);
        self.is_first.store(false, Ordering::Relaxed);
        on_threads(self.jobs(), &|job| while self.step(job) {});
        self.progress.clear();
        let mut found = lock(&self.found).take();
        if lock(&self.counts).runs == 0 {
            // None has passed, so it isn't said that all have.
            found = found.or_else(|| lock(&self.failed_by_time).take());
        }
        let has_nothing = lock(&self.counts).have_nothing();
        let found = found.map(|found| {
            if has_nothing {
                self.report_nothing(found)
            } else {
                self.report(found)
            }
        });
        let (counts, search) = (lock(&self.counts), lock(&self.search));
        let elapsed = self.budget.elapsed();
        let asked = self.asked();
        if found.is_none() && has_nothing {
            say(&counts.nothing_in_words(&self.name, None));
        } else if found.is_none() {
            say(&counts.passed_in_words(&self.name, asked.as_ref(), &search, elapsed));
        }
        if let Some(path) = &self.settings.out {
            let json = counts.json(&self.name, asked.as_ref(), &search, elapsed, found.as_ref());
            if let Err(error) = fs::write(path, json) {
                say(&format!("{} isn't written: {error}", path.display()));
            }
        }
        let is_unexplored = counts.has_one_order() && !self.has_named_order();
        let is_unknown = asked.is_some_and(|asked| !asked.is_there);
        found.is_some() || has_nothing || is_unexplored || is_unknown
    }

    /// Returns how many processes run beside each other at most.
    pub(super) fn jobs(&self) -> usize {
        self.settings.jobs.min(self.settings.runs.max(1) as usize)
    }

    /// Whether no run has another one beside it.
    pub(super) fn is_one_at_a_time(&self) -> bool {
        self.jobs() == 1 || self.is_first.load(Ordering::Relaxed) || lock(&self.counts).has_clash()
    }

    /// Returns what is looked for, and says so if there was nothing of its name.
    pub(super) fn asked(&self) -> Option<AskedCondition> {
        let condition = self.settings.condition.as_ref()?;
        let there = lock(&self.there);
        // Without an answer of any run, nothing is known.
        let is_there = there.is_any || !there.is_answered;
        Some(AskedCondition {
            text: condition.to_string(),
            is_there,
            unknown: (!is_there).then(|| {
                let names: Vec<String> = there.names.iter().map(str::to_string).listed();
                condition.unknown_among(&names)
            }),
        })
    }

    /// Notes what a run says of the condition.
    fn note(&self, ran: &Ran) {
        let mut there = lock(&self.there);
        match &ran.answer {
            None => (),
            Some(Meets::Met(_) | Meets::NotMet) => there.is_any = true,
            Some(Meets::Unknown(names)) => {
                if let (false, Some(condition)) = (there.is_answered, &self.settings.condition) {
                    let unknown = condition.unknown_among(names);
                    let name = &self.name;
                    say(&format!("{name}: in its first run {unknown}"));
                }
                there.names.extend(names);
            }
        }
        there.is_answered |= ran.answer.is_some();
    }

    /// Runs the test once. Returns `false` if there is no further run.
    fn step(&self, job: usize) -> bool {
        if self.is_over.load(Ordering::Relaxed) || self.budget.is_search_over() {
            return false;
        }
        self.see_timers(job);
        let Some(task) = lock(&self.search).next() else {
            return false;
        };
        let Some((ran, counts_as)) = self.run_of(&task, job) else {
            return false;
        };
        self.note(&ran);
        match counts_as {
            CountsAs::Run => (),
            CountsAs::ByTime => return self.goes_on_after(task, ran),
            CountsAs::Endless => {
                lock(&self.search).said_nothing(&task);
                lock(&self.counts).endless += 1;
                return true;
            }
        }
        let Some(schedule) = ran.schedule.as_ref() else {
            return self.end_without_schedule(task, ran);
        };
        let mut counts = lock(&self.counts);
        counts.add(&task, schedule);
        self.progress.show(&counts, self.budget.elapsed());
        let is_told = counts.runs >= TELLING_RUNS;
        let (has_nothing, has_one_order) = (counts.have_nothing(), counts.has_one_order());
        drop(counts);
        let is_pointless = is_told && (has_nothing || has_one_order && self.has_seen_timers());
        if is_pointless {
            self.is_over.store(true, Ordering::Relaxed);
        }
        if ran.failure.is_some() {
            self.end_with(task, ran);
            return false;
        }
        lock(&self.search).passed(&task, schedule);
        lock(&self.passed).add(task.order, schedule);
        true
    }

    /// Whether runs have shown if the test waits for timers, as far as they do.
    fn has_seen_timers(&self) -> bool {
        lock(&self.search).has_seen_timers()
    }

    /// Whether the session runs an order that is asked for by its name.
    pub(super) fn has_named_order(&self) -> bool {
        matches!(self.settings.from, From::Order(_))
    }

    /// Makes the run of a task, and returns what it counts as. What fails beside others counts if
    /// it fails alone too. Returns `None` if the session is over.
    fn run_of(&self, task: &Task, job: usize) -> Option<(Ran, CountsAs)> {
        let (ran, was_alone) = self.run_by(&By::Order(&task.order), job)?;
        let Some(failure) = &ran.failure else {
            return Some((ran, CountsAs::Run));
        };
        if failure.is_no_end() && self.ends_in_turn(task, job) {
            return Some((ran, CountsAs::Endless));
        }
        if self.is_by_time(&ran, job) {
            return Some((ran, CountsAs::ByTime));
        }
        let ran = if was_alone {
            ran
        } else {
            self.run_alone(task, ran, job)?
        };
        Some((ran, CountsAs::Run))
    }

    /// Whether a run that had no end passes where whoever stands goes on in turn.
    fn ends_in_turn(&self, task: &Task, job: usize) -> bool {
        let (name, order) = (&self.name, &task.order);
        say(&format!(
            "{name}: {order} had no end; it is tried again where all who stand go on in turn"
        ));
        let again = self.run_by(&By::Fair(order), job);
        again.is_some_and(|(ran, _)| ran.failure.is_none())
    }

    /// Runs the test once. Returns whether nothing ran beside it, too, or nothing if the session's
    /// time is over.
    fn run_by(&self, by: &By<'_>, job: usize) -> Option<(Ran, bool)> {
        let run = || match self
            .program
            .run(by, Says::All, job, self.program.time_of_run())
        {
            Ok(ran) => Some(ran).filter(|ran| !ran.is_cut),
            Err(error) if error.kind() == io::ErrorKind::TimedOut => None,
            Err(error) => panic!("yovanelum: a run can't be started: {error}"),
        };
        let beside = self.room.read().unwrap_or_else(PoisonError::into_inner);
        if !self.is_one_at_a_time() {
            return Some((run()?, false));
        }
        drop(beside);
        let _alone = self.room.write().unwrap_or_else(PoisonError::into_inner);
        Some((run()?, true))
    }

    /// Ends with a run that fails. It is told at once if its order is to be tried again.
    fn end_with(&self, task: Task, ran: Ran) {
        self.is_over.store(true, Ordering::Relaxed);
        let counts = lock(&self.counts);
        let (runs, has_nothing) = (counts.made().max(1), counts.have_nothing());
        drop(counts);
        let mut found = lock(&self.found);
        if found.is_none() {
            self.progress.clear();
            self.budget.note_found();
            self.program.set_end(self.budget.end());
            let first = FoundRun {
                task,
                ran,
                runs,
                took: self.budget.elapsed(),
            };
            if !has_nothing && first.ran.schedule.is_some() {
                say(&format!("{}: {}", self.name, first.in_words()));
            }
            *found = Some(first);
        }
    }

    /// Ends with a run that has written no schedule: its process was ended, or the test makes no
    /// recorder when it is run alone.
    fn end_without_schedule(&self, task: Task, ran: Ran) -> bool {
        if ran.failure.is_none() {
            self.is_over.store(true, Ordering::Relaxed);
            panic!(
                "yovanelum: {} isn't explored: run alone, its program ends without this test's recorder",
                self.name
            );
        }
        self.end_with(task, ran);
        false
    }
}
