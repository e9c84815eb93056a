//! What several tests share.
#![allow(dead_code, unused_imports)]

pub mod console;
pub mod durations;
pub mod named;
pub mod parts;
pub mod random;
pub mod temporary;
pub mod workspace;
pub mod yielding;

pub use random::Random;

use std::future::Future;
use std::path::{Path, PathBuf};
use std::pin::pin;
use std::process::Command;
use std::sync::mpsc::{self, RecvTimeoutError};
use std::task::{Context, Poll, Waker};
use std::time::Duration;
use std::{panic, thread};
use yovanelum::Recorder;

/// Polls a future once and drops it. Returns its output, or `None` if it is pending.
pub fn poll_once<F: Future>(future: F) -> Option<F::Output> {
    match pin!(future).poll(&mut Context::from_waker(Waker::noop())) {
        Poll::Ready(output) => Some(output),
        Poll::Pending => None,
    }
}

/// How long nothing takes that ends, also on a machine that is busy.
pub const LONG: Duration = Duration::from_secs(600);

/// Runs something that a fault may make wait forever, in a thread of its own. Returns its result,
/// or panics after ten minutes.
pub fn in_time<R: Send + 'static>(act: impl FnOnce() -> R + Send + 'static) -> R {
    let (over, is_over) = mpsc::channel::<()>();
    let thread = thread::spawn(move || {
        let _over = over;
        act()
    });
    let waited = is_over.recv_timeout(LONG);
    assert_ne!(waited, Err(RecvTimeoutError::Timeout), "it waits forever");
    thread
        .join()
        .unwrap_or_else(|panicked| panic::resume_unwind(panicked))
}

/// How often something is done: so often, or as the second number says where the variable
/// `YOVANELUM_SLOW` is set, as by `rust/test slow`.
pub fn rounds(few: usize, many: usize) -> usize {
    let is_slow = std::env::var_os("YOVANELUM_SLOW").is_some();
    if is_slow { many } else { few }
}

/// The stamps of a journal's entries.
pub fn stamps(journal: &str) -> Vec<u64> {
    let entries = journal.lines().filter(|line| line.contains(" = "));
    entries
        .map(|line| line.split(' ').next().unwrap().parse().unwrap())
        .collect()
}

/// The path at which the journal of a failed test of this process is.
pub fn kept_journal(name: &str) -> PathBuf {
    let program = std::env::current_exe().unwrap();
    let mut folders = program.ancestors();
    let target = folders.find(|folder| folder.join("CACHEDIR.TAG").exists());
    let folder = format!("yovanelum/yovanelum/test-{}", env!("CARGO_CRATE_NAME"));
    target.unwrap().join(folder).join(format!("{name}.journal"))
}

/// Asserts that the proved debugger, `ttd check`, accepts the journal, and returns the number of
/// its entries. Where no program can be started, the entries are only counted.
pub fn accepted(recorder: &Recorder, name: &str) -> u64 {
    let path = temporary::path(&format!("{name}.journal"));
    recorder.save(&path).unwrap();
    let text = std::fs::read_to_string(&path).unwrap();
    let entries = text.lines().filter(|line| line.contains(" = ")).count() as u64;
    if let Some(ttd) = console::ttd() {
        let judged = Command::new(ttd).arg("check").arg(&path).output().unwrap();
        assert_eq!(
            String::from_utf8_lossy(&judged.stdout),
            format!("ok {entries}\n"),
            "{}",
            path.display()
        );
    }
    let names = std::fs::read_to_string(path.with_extension("names")).unwrap();
    named::assert_each_call_has_its_place(&text, &names);
    std::fs::remove_file(&path).unwrap();
    std::fs::remove_file(path.with_extension("names")).unwrap();
    entries
}

/// Returns the names that a recorder saves beside its journal.
pub fn saved_names(recorder: &Recorder, name: &str) -> String {
    let path = temporary::path(&format!("{name}.journal"));
    recorder.save(&path).unwrap();
    let names = std::fs::read_to_string(path.with_extension("names")).unwrap();
    std::fs::remove_file(path.with_extension("names")).unwrap();
    std::fs::remove_file(path).unwrap();
    names
}

/// Returns what `ttd debug` writes for these commands over a journal, or `None` where no program
/// can be started.
pub fn debugged(journal: &Path, commands: &str) -> Option<String> {
    console::ttd().map(|ttd| console::written(&ttd, journal, commands))
}
