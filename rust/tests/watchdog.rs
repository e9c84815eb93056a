//! A watchdog says which calls wait where a test does not end in time, and is silent where it does.

mod support;

use std::fs;
use std::future::Future;
use std::io::{BufRead, BufReader, Read};
use std::pin::pin;
use std::process::{Child, Stdio};
use std::task::{Context, Waker};
use std::thread;
use std::time::Duration;
use support::in_time;
use support::parts::{Folder, address, files, is_part, play, started};
use yovanelum::{Recorder, block_on, broadcast, named, watch};

/// Longer than any test runs.
const NEVER: Duration = Duration::from_secs(3600);

/// Waits until the process that has started this part closes the standard input.
fn wait_for_the_end_of_input() {
    std::io::stdin().read_to_end(&mut vec![]).unwrap();
}

/// The line at which the worker of the part below waits.
const WORKER_WAITS_AT: u32 = line!() + 8;

fn a_worker_that_waits(name: &str) {
    let recorder = Recorder::for_test(name);
    let (state, mut rx) = watch::channel("loading");
    recorder.name(&state, "state");
    let worker = thread::Builder::new().name("worker".into());
    let worker = worker.spawn(move || {
        let ready = rx.wait_for(|state| *state == "ready");
        assert!(block_on(ready).is_ok());
    });
    while recorder.waiting().is_empty() {
        thread::yield_now();
    }
    let _recorder = recorder.watchdog(Duration::from_millis(1));
    wait_for_the_end_of_input();
    state.send("ready").unwrap();
    worker.unwrap().join().unwrap();
}

/// Reads lines of this crate from the standard error of a process.
fn read_lines(process: &mut Child, count: usize) -> Vec<String> {
    let lines = BufReader::new(process.stderr.as_mut().unwrap()).lines();
    let ours = lines
        .map(Result::unwrap)
        .filter(|line| line.starts_with("yovanelum: ") || line.starts_with("look: "));
    ours.take(count).collect()
}

/// Starts the part of a test whose input and output are this test's. Its output is captured, as
/// that of tests is.
fn piped(test: &str, folder: &Folder) -> Child {
    let mut part = started(test, &folder.0);
    let part = part.stdin(Stdio::piped()).stdout(Stdio::piped());
    part.stderr(Stdio::piped()).spawn().unwrap()
}

#[test]
fn a_test_that_hangs_says_who_waits_and_goes_on() {
    if is_part() {
        return a_worker_that_waits("hangs");
    }
    in_time(|| {
        let folder = Folder::new("hangs");
        let mut part = piped("a_test_that_hangs_says_who_waits_and_goes_on", &folder);
        let said = read_lines(&mut part, 3);
        let path = files(&folder.0).join("hangs.journal");
        let wanted = [
            format!(
                "yovanelum: hangs has not ended after 1ms; its calls so far are in {}",
                path.display()
            ),
            format!(
                "yovanelum: still waiting: worker in `state.wait_for`, {}:{WORKER_WAITS_AT}",
                file!()
            ),
            format!("look: {}#call=1", address(&path.with_extension("html"))),
        ];
        assert_eq!(said, wanted);
        let journal = fs::read_to_string(&path).unwrap();
        assert!(
            journal.ends_with("steps\n1 0 0 update 1 = value 0\nend\n"),
            "{journal}"
        );
        let names = fs::read_to_string(path.with_extension("names")).unwrap();
        let waiting = r#""waiting": [{"actor": 0, "channel": 0, "handle": 1, "call": "wait_for", "since": 1, "#;
        assert!(names.contains(waiting), "{names}");
        // The test goes on, and passes.
        drop(part.stdin.take());
        assert!(part.wait().unwrap().success());
    });
}

/// How many calls the part below has wait.
const MANY: usize = 13;

#[test]
fn of_many_calls_that_wait_ten_are_listed() {
    if is_part() {
        let recorder = Recorder::for_test("many");
        let (state, rx) = watch::channel("loading");
        let waits = |mut rx: watch::Receiver<&'static str>| {
            move || assert!(block_on(rx.wait_for(|state| *state == "ready")).is_ok())
        };
        let workers: Vec<_> = (0..MANY)
            .map(|_| thread::spawn(waits(rx.clone())))
            .collect();
        while recorder.waiting().len() < MANY {
            thread::yield_now();
        }
        let _recorder = recorder.watchdog(Duration::from_millis(1));
        wait_for_the_end_of_input();
        state.send("ready").unwrap();
        workers.into_iter().for_each(|it| it.join().unwrap());
        return;
    }
    in_time(|| {
        let folder = Folder::new("many");
        let mut part = piped("of_many_calls_that_wait_ten_are_listed", &folder);
        let said = read_lines(&mut part, 13);
        let waits = said
            .iter()
            .filter(|line| line.contains(": still waiting: "));
        assert_eq!(waits.count(), 10, "{said:#?}");
        assert_eq!(said[11], format!("yovanelum: and {} more", MANY - 10));
        drop(part.stdin.take());
        assert!(part.wait().unwrap().success());
    });
}

#[test]
fn a_test_that_hangs_where_no_call_waits_says_so() {
    if is_part() {
        let recorder = Recorder::for_test("computes").watchdog(NEVER);
        let _channel = broadcast::channel::<u8>(2);
        // The second call replaces the first.
        let _recorder = recorder.watchdog(Duration::ZERO);
        return wait_for_the_end_of_input();
    }
    in_time(|| {
        let folder = Folder::new("computes");
        let mut part = piped("a_test_that_hangs_where_no_call_waits_says_so", &folder);
        let said = read_lines(&mut part, 2);
        assert_eq!(said[1], "yovanelum: no call on its channels waits");
        drop(part.stdin.take());
        assert!(part.wait().unwrap().success());
    });
}

/// The line of the receive below, which nobody polls a second time.
const LEFT_AT: u32 = line!() + 6;

fn a_receive_that_nobody_polls(name: &str) {
    let recorder = Recorder::for_test(name);
    let (jobs, mut worker) = broadcast::channel(4);
    recorder.name(&jobs, "jobs");
    let mut recv = pin!(named("worker", worker.recv()));
    let mut context = Context::from_waker(Waker::noop());
    assert!(recv.as_mut().poll(&mut context).is_pending());
    jobs.send(7).unwrap();
    let _recorder = recorder.watchdog(Duration::from_millis(1));
    wait_for_the_end_of_input();
}

#[test]
fn a_call_that_was_woken_and_that_nobody_polls_is_not_told_to_wait() {
    if is_part() {
        return a_receive_that_nobody_polls("left");
    }
    in_time(|| {
        let folder = Folder::new("left");
        let test = "a_call_that_was_woken_and_that_nobody_polls_is_not_told_to_wait";
        let mut part = piped(test, &folder);
        let lines = BufReader::new(part.stderr.as_mut().unwrap()).lines();
        let lines = lines.map(Result::unwrap);
        let said: Vec<_> = lines.take_while(|it| !it.starts_with("look: ")).collect();
        let told = |start: &str| said.iter().filter(|it| it.starts_with(start)).count();
        let at = format!("{}:{LEFT_AT}", file!());
        let listed = format!("yovanelum: still waiting: worker in `jobs.recv`, {at}, ");
        let listed = listed + "which was woken and hasn't gone on since";
        assert!(said.contains(&listed), "{said:?}");
        assert_eq!(told("yovanelum: still waiting: "), 1);
        let head = "error: `jobs.recv` of worker was woken: it was not polled since call 1, ";
        assert!(said.contains(&format!("{head}which ends it")), "{said:?}");
        drop(part.stdin.take());
        assert!(part.wait().unwrap().success());
    });
}

/// The line of the look below, which is alive while its thread sends.
const LOOK_IS_AT: u32 = line!() + 7;

fn a_send_under_a_look(name: &str) {
    let recorder = Recorder::new();
    let _entered = recorder.enter();
    let (state, rx) = watch::channel("loading");
    recorder.name(&state, "state");
    let _look = rx.borrow();
    let saved = recorder.save_on_panic(name);
    thread::spawn(move || {
        while recorder.waiting().is_empty() {
            thread::yield_now();
        }
        let _saved = saved.watchdog(Duration::ZERO);
        wait_for_the_end_of_input();
    });
    let _ = state.send("ready");
}

#[test]
fn a_thread_that_blocks_itself_by_its_own_look_says_so() {
    if is_part() {
        return a_send_under_a_look("blocked");
    }
    in_time(|| {
        let folder = Folder::new("blocked");
        let mut part = piped(
            "a_thread_that_blocks_itself_by_its_own_look_says_so",
            &folder,
        );
        let said = read_lines(&mut part, 2);
        let by = "a_thread_that_blocks_itself_by_its_own_look_says_so";
        let (file, sent_at) = (file!(), LOOK_IS_AT + 9);
        let wanted = format!(
            "yovanelum: still waiting: {by} in `state.send`, {file}:{sent_at}, for a look taken at {file}:{LOOK_IS_AT} by {by}"
        );
        assert_eq!(said[1], wanted);
        part.kill().unwrap();
        part.wait().unwrap();
    });
}

#[test]
fn a_test_that_ends_in_time_writes_nothing() {
    if is_part() {
        let _recorder = Recorder::for_test("ends").watchdog(NEVER);
        let (tx, mut rx) = broadcast::channel(2);
        tx.send(1).unwrap();
        assert_eq!(rx.try_recv(), Ok(1));
        return;
    }
    let folder = Folder::new("ends");
    let (succeeds, said) = play("a_test_that_ends_in_time_writes_nothing", &folder.0, None);
    assert!(succeeds && !said.contains("yovanelum"), "{said}");
    assert!(!files(&folder.0).exists());
}

#[test]
fn a_test_that_fails_in_time_writes_its_journal_once() {
    if is_part() {
        let _recorder = Recorder::for_test("fails").watchdog(NEVER);
        let (tx, _rx) = broadcast::channel(2);
        tx.send(1).unwrap();
        panic!("the test fails");
    }
    let folder = Folder::new("fails");
    let (succeeds, said) = play(
        "a_test_that_fails_in_time_writes_its_journal_once",
        &folder.0,
        None,
    );
    assert!(!succeeds && !said.contains("has not ended"), "{said}");
    assert!(files(&folder.0).join("fails.journal").exists());
}

#[test]
fn a_watchdog_keeps_no_function_for_texts_alive() {
    in_time(|| {
        let recorder = Recorder::for_test("function_beside_a_watchdog").watchdog(NEVER);
        let (tx, mut rx) = broadcast::channel(2);
        let held = tx.clone();
        recorder.show(&tx, move |value: &u8| {
            format!("{value} {}", held.strong_count())
        });
        drop((tx, recorder));
        assert!(block_on(rx.recv()).is_err());
    });
}
