//! The hook that notes the panics of tests, and writes the files of a test where a panic ends the
//! process.

use super::automatic;
use super::flight::dump_on_panic;
use super::test_run::TestRun;
use crate::channels::erased::is_showing;
use crate::channels::lock::lock;
use crate::channels::recorder::text_of;
use crate::harness::program::Program;
use std::io::{self, Write};
use std::panic::{self, PanicHookInfo};
use std::sync::{Arc, Mutex};
use std::{mem, thread};
use yovanelum_record::listed::IntoList;

/// The texts of the panics by which the standard library ends the process: after a second one in a
/// drop, and in a function that can't unwind. Their place is in the standard library.
const LAST_TEXTS: [&str; 2] = [
    "panic in a destructor during cleanup",
    "panic in a function that cannot unwind",
];

static IS_INSTALLED: Mutex<bool> = Mutex::new(false);

/// Installs the hook for the process, once. It calls the hook that was there: after it has noted
/// the panic and has written what is to be written, since that hook may end the process, and before
/// it prints, since that hook prints what the panic says. The harness's hook ends the process, so
/// what is printed is before it.
pub(super) fn install() {
    // A thread that panics can't set a hook.
    if thread::panicking() || mem::replace(&mut *lock(&IS_INSTALLED), true) {
        return;
    }
    let before = panic::take_hook();
    panic::set_hook(Box::new(move |info| {
        // It is caught, and is no panic of the test.
        if is_showing() {
            return;
        }
        dump_on_panic(info, is_last(info));
        automatic::see_this_thread();
        let mut ended = note(info);
        if cfg!(panic = "abort") && Program::this().target.is_test {
            ended.drain(..).for_each(Ended::print);
        }
        before(info);
        automatic::report_in_hook();
        ended.into_iter().for_each(Ended::print);
    }));
}

/// A test whose files are written, since its process ends, and what is to be printed of it.
struct Ended {
    run: Arc<TestRun>,
    lines: String,
}

impl Ended {
    fn print(self) {
        // What a test prints is shown when it has ended, and that won't be. If standard error is
        // closed, nobody reads it.
        let _ = io::stderr().write_all(self.lines.as_bytes());
        self.run.end_replay_before_process_ends();
    }
}

/// Notes a panic for each test that its thread belongs to, and writes its files if the process
/// ends. A panic in here would end the process.
fn note(info: &PanicHookInfo<'_>) -> Vec<Ended> {
    let is_last = is_last(info);
    let runs = TestRun::of_this_thread();
    // The last one of a process says nothing of its own.
    let unknown = runs.iter().filter(|run| !(is_last && run.has_panicked()));
    unknown.for_each(|run| run.note_panic(info));
    let ended = runs
        .into_iter()
        .filter(|_| is_last || cfg!(panic = "abort"));
    let written = ended.filter_map(|run| {
        let lines = run.write_before_process_ends()?;
        Some(Ended { run, lines })
    });
    written.listed()
}

/// Whether the process ends after this panic, as it does where panics unwind.
fn is_last(info: &PanicHookInfo<'_>) -> bool {
    let text = text_of(info);
    let is_in_library = |file: &str| file.ends_with("panicking.rs");
    LAST_TEXTS.contains(&text.as_str())
        && info
            .location()
            .is_some_and(|location| is_in_library(location.file()))
}
