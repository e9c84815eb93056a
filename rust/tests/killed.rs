//! A service with a flight recorder that is told to end, or is killed, at many moments: what it
//! leaves are whole dumps.
// Signals are Unix's.
#![cfg(unix)]

mod support;

use std::collections::BTreeSet;
use std::fs;
use std::io::{BufRead, BufReader, Read};
use std::path::{Path, PathBuf};
use std::process::{Child, Command, ExitStatus, Stdio};
use std::sync::atomic::{AtomicBool, Ordering};
use std::time::Duration;
use support::parts::{Folder, is_part, started};
use yovanelum::debugger::Walk;
use yovanelum::{Recorder, broadcast};

/// The number of SIGTERM on each Unix.
const TERMINATE: i32 = 15;

static IS_TOLD_TO_END: AtomicBool = AtomicBool::new(false);

extern "C" fn note_end(_number: i32) {
    IS_TOLD_TO_END.store(true, Ordering::SeqCst);
}

unsafe extern "C" {
    fn signal(number: i32, handler: extern "C" fn(i32)) -> usize;
}

/// A service whose audit lags at each 16th order, and so begins dumps all the time. Once it is told
/// to end, it writes a last one. It prints a line for each 64th order.
fn serve() {
    // SAFETY: the handler only stores a flag.
    unsafe { signal(TERMINATE, note_end) };
    let recorder = Recorder::flight(100);
    let dumps = recorder.dump_to("dumps").when_lag(1).keep(1_000);
    dumps.at_most_every(Duration::ZERO);
    let _entered = recorder.enter();
    let (orders, mut audit) = broadcast::channel(4);
    for order in 0_u64.. {
        orders.send(order).unwrap();
        if order % 16 == 15 {
            assert!(audit.try_recv().is_err());
            while audit.try_recv().is_ok() {}
        }
        if order % 64 == 0 {
            println!("{order}");
        }
        if IS_TOLD_TO_END.load(Ordering::SeqCst) {
            break;
        }
    }
    let path = recorder.dump("it was told to end").wait().unwrap();
    println!("\nlast: {}", path.display());
}

/// Runs the service of this test in a folder, and sends it this signal when it has printed `lines`
/// lines. Returns what it prints after them, and how it ends.
fn signalled(test: &str, folder: &Path, name: &str, lines: usize) -> (String, ExitStatus) {
    let mut command = started(test, folder);
    command.arg("--nocapture").stdout(Stdio::piped());
    let mut service = command.stderr(Stdio::null()).spawn().unwrap();
    let mut said = BufReader::new(service.stdout.take().unwrap());
    for _ in 0..lines {
        assert!(said.read_line(&mut String::new()).unwrap() > 0);
    }
    send(&service, name);
    let mut rest = String::new();
    said.read_to_string(&mut rest).unwrap();
    (rest, service.wait().unwrap())
}

fn send(service: &Child, name: &str) {
    let line = format!("kill -{name} {}", service.id());
    let sent = Command::new("sh").args(["-c", &line]).status().unwrap();
    assert!(sent.success());
}

/// Returns the paths of the journals in a folder. Asserts that each is whole and has its names,
/// unless it was seen before.
fn whole_journals(folder: &Path, seen: &BTreeSet<PathBuf>) -> BTreeSet<PathBuf> {
    // A service may be killed before its first dump.
    let files = fs::read_dir(folder).into_iter().flatten();
    let files = files.map(|file| file.unwrap().path());
    let is_journal = |path: &PathBuf| path.extension().is_some_and(|it| it == "journal");
    let journals: BTreeSet<_> = files.filter(is_journal).collect();
    for path in journals.difference(seen) {
        Walk::open(&fs::read(path).unwrap()).unwrap();
        let names = fs::read_to_string(path.with_extension("names")).unwrap();
        assert!(names.ends_with("\n}\n"), "{names}");
    }
    journals
}

#[test]
fn a_service_that_is_told_to_end_writes_a_last_dump() {
    if is_part() {
        return serve();
    }
    let test = "a_service_that_is_told_to_end_writes_a_last_dump";
    let folder = Folder::new("killed-terminated");
    let dumps = folder.0.join("dumps");
    for moment in 0..20 {
        // The harness prints two lines before the service does.
        let (rest, status) = signalled(test, &folder.0, "TERM", 3 + moment * 7);
        assert!(status.success(), "{rest}");
        let last = rest.lines().find_map(|line| line.strip_prefix("last: "));
        let last = folder.0.join(last.unwrap());
        assert!(whole_journals(&dumps, &BTreeSet::new()).contains(&last));
        let names = fs::read_to_string(last.with_extension("names")).unwrap();
        assert!(
            names.contains("\"reason\": \"it was told to end\""),
            "{names}"
        );
        fs::remove_dir_all(&dumps).unwrap();
    }
}

#[test]
fn a_service_that_is_killed_leaves_whole_dumps() {
    if is_part() {
        return serve();
    }
    let test = "a_service_that_is_killed_leaves_whole_dumps";
    let folder = Folder::new("killed-killed");
    let dumps = folder.0.join("dumps");
    let mut before = BTreeSet::new();
    for moment in 0..50 {
        let (_, status) = signalled(test, &folder.0, "KILL", 3 + moment * 5);
        assert!(!status.success());
        before = whole_journals(&dumps, &before);
    }
    // What is asked for is counted apart from lags, and what was never whole isn't counted.
    let recorder = Recorder::flight(10);
    recorder.dump_to(&dumps).keep(3);
    let _entered = recorder.enter();
    let _channel = broadcast::channel::<u32>(4);
    let next = recorder.dump("asked for").wait().unwrap();
    let left = whole_journals(&dumps, &before);
    assert_eq!(left.len(), before.len() + 1);
    assert!(left.contains(&next));
}
