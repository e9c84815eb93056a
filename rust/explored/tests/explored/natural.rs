//! Runs of a program that nobody explores, as a test makes them that is repeated: in any order, or
//! with a sleep before each recorded call.
//!
//! A process makes them one after the other, each in a thread of its own with a recorder of its
//! own. So a run costs no start of a process.

use crate::{PROGRAMS, said};
use std::cell::Cell;
use std::panic::{self, AssertUnwindSafe};
use std::process::Command;
use std::sync::atomic::{AtomicU64, Ordering};
use std::sync::mpsc;
use std::time::{Duration, Instant};
use std::{env, thread};
use yovanelum::Recorder;

/// How many runs are made.
const RUNS: u64 = 10_000;

/// After how many that fail it is known how rare they are.
const ENOUGH: u64 = 20;

/// How long a run takes at most. One that takes longer hangs.
const MOST: Duration = Duration::from_secs(10);

/// How long a sleep is at most, in microseconds.
const LONGEST_SLEEP: u64 = 500;

const PROGRAM: &str = "YOVANELUM_NATURAL_PROGRAM";
const SLEEPS: &str = "YOVANELUM_NATURAL_SLEEPS";
const SECONDS: &str = "YOVANELUM_NATURAL_SECONDS";

/// Runs a program in a process of its own, for `seconds` seconds at most. Returns how many runs
/// failed, of how many.
pub fn natural(name: &str, sleeps: bool, seconds: u64) -> String {
    let ran = Command::new(env::current_exe().unwrap())
        .args(["--ignored", "--exact", "natural::runs", "--nocapture"])
        .env(PROGRAM, name)
        .env(SECONDS, seconds.to_string())
        .envs(sleeps.then_some((SLEEPS, "1")))
        .output()
        .unwrap();
    assert!(ran.status.success(), "{}", said(&ran));
    let printed = String::from_utf8(ran.stdout).unwrap();
    let counts = printed.lines().find(|line| line.contains(" of "));
    counts.unwrap().to_string()
}

/// The process that makes the runs.
#[test]
#[ignore = "the table makes these runs"]
fn runs() {
    let Ok(name) = env::var(PROGRAM) else { return };
    let seconds = env::var(SECONDS).unwrap().parse().unwrap();
    let (_, run) = PROGRAMS.iter().find(|(other, _)| *other == name).unwrap();
    if env::var_os(SLEEPS).is_some() {
        // It is asked once for each recorded call, before anything is locked.
        yovanelum::set_task_id(sleep_at_random);
    }
    panic::set_hook(Box::new(|_| {}));
    let (began, most) = (Instant::now(), Duration::from_secs(seconds));
    let (mut failed, mut all) = (0, 0);
    while all < RUNS && failed < ENOUGH && began.elapsed() < most {
        failed += u64::from(!passes(*run));
        all += 1;
    }
    println!("\n{failed} of {all}");
}

/// Runs a program once. The threads of one that hangs stay.
fn passes(run: fn()) -> bool {
    let (end, ended) = mpsc::channel();
    thread::spawn(move || {
        let recorder = Recorder::new();
        let _entered = recorder.enter();
        let _ = end.send(panic::catch_unwind(AssertUnwindSafe(run)).is_ok());
    });
    ended.recv_timeout(MOST) == Ok(true)
}

/// Sleeps for up to [`LONGEST_SLEEP`]. No thread has the sleeps of another one.
fn sleep_at_random() -> Option<u64> {
    static THREADS: AtomicU64 = AtomicU64::new(1);
    thread_local! {
        static RANDOM: Cell<u64> = Cell::new(THREADS.fetch_add(1, Ordering::Relaxed));
    }
    let random = RANDOM.get().wrapping_mul(6_364_136_223_846_793_005);
    let random = random.wrapping_add(1_442_695_040_888_963_407);
    RANDOM.set(random);
    thread::sleep(Duration::from_micros((random >> 33) % LONGEST_SLEEP));
    None
}

#[test]
fn a_run_that_panics_has_failed() {
    assert!(!passes(|| panic!("it is to fail")));
    assert!(passes(|| ()));
}
