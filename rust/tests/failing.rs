//! What a failing test prints and writes. Each test runs this program again for its part, as a
//! process whose output can be read.

mod support;

use std::fs;
use std::mem;
use std::panic::{AssertUnwindSafe, catch_unwind};
use std::path::Path;
use std::process::Command;
use std::task::{Context, Waker};
use std::thread;
use std::time::{Duration, Instant};
use support::durations::Measured;
use support::parts::{Folder, address, between, files, is_part, line_after, our_lines, play};
use yovanelum::broadcast::error::TryRecvError;
use yovanelum::{Recorder, block_on, broadcast, named, watch};

/// Runs the part of this test. Returns whether it succeeds, and the lines of this crate, with `DIR`
/// for the folder of the files. The last one, which says how to replay the test, is left to
/// `tests/replayed.rs`.
fn played(test: &str, folder: &Folder) -> (bool, Vec<String>) {
    let (succeeds, said) = play(test, &folder.0, None);
    let files = files(&folder.0);
    let (at, path) = (address(&files), files.display().to_string());
    let lines = our_lines(&said).into_iter();
    let lines = lines.filter(|line| !line.starts_with("replay: "));
    let lines = lines.map(|line| {
        let line = line.replace(&at, "file://DIR").replace(&path, "DIR");
        // Where a build has no lines of places, the drop has none.
        match line.split_once("dropped the last sender   desk") {
            Some((call, _)) => format!("{call}dropped the last sender   desk"),
            None => line,
        }
    });
    (succeeds, lines.collect())
}

/// Asserts that the part of this test fails with these lines, each with the number of a line of
/// this source in place of `NN`.
fn assert_said(test: &str, at: &[u32], wanted: &str) {
    let folder = Folder::new(test);
    let (succeeds, said) = played(test, &folder);
    let mut at = at.iter();
    let wanted: Vec<_> = wanted
        .lines()
        .map(|line| {
            if line.contains("NN") {
                line.replace("NN", &at.next().unwrap().to_string())
            } else {
                line.to_string()
            }
        })
        .collect();
    assert_eq!((succeeds, said), (false, wanted));
}

/// The lines of this source at which the calls below are made.
const SEND: u32 = line!() + 5;
const RECEIVE: u32 = SEND + 5;

/// Sends a number under this name.
fn send(by: &str, tx: &broadcast::Sender<u32>, number: u32) {
    block_on(named(by, async { tx.send(number) })).unwrap();
}

/// Receives without waiting, under this name.
fn receive(by: &str, rx: &mut broadcast::Receiver<u32>) -> Result<u32, TryRecvError> {
    block_on(named(by, async { rx.try_recv() }))
}

#[test]
fn a_loss_that_nobody_was_told_of() {
    if is_part() {
        let recorder = Recorder::for_test("untold");
        let (jobs, mut worker) = broadcast::channel(2);
        let mut log = jobs.subscribe();
        recorder.name(&jobs, "jobs").name(&log, "log");
        send("desk", &jobs, 1);
        receive("worker", &mut worker).unwrap();
        receive("clerk", &mut log).unwrap();
        for number in 2..=4 {
            send("desk", &jobs, number);
        }
        drop(log);
        // The test fails here. The worker is dropped by that.
        panic!("the test fails");
    }
    let wanted = "\
failed: a_loss_that_nobody_was_told_of at rust/tests/failing.rs:NN: the test fails
error: `worker` lost 1 of 4 values of `jobs` (capacity 2)
  --> rust/tests/failing.rs:NN:35
note: the panic, it had not been told by then
  --> rust/tests/failing.rs:NN:9
  call 7      jobs.send(its 4th value)   desk                            rust/tests/failing.rs:NN   overwrote its 2nd value, which worker had not read
  the panic   not told                   a_loss_that_nobody_was_told_of  rust/tests/failing.rs:NN   its last receive: call 3, its 1st value
  lost: its 2nd value
warning: `log` lost 1 of 4 values of `jobs` (capacity 2)
  --> rust/tests/failing.rs:NN:35
  call 7   jobs.send(its 4th value)   desk                            rust/tests/failing.rs:NN   overwrote its 2nd value, which log had not read
  call 8   dropped: never told        a_loss_that_nobody_was_told_of                             its last receive: call 4, its 1st value
  lost: its 2nd value
look: file://DIR/untold.html#call=7
";
    let source = include_str!("failing.rs");
    let failed = line_after(source, "// The test fails here.");
    let at = [failed, SEND, failed, SEND, failed, SEND, SEND];
    assert_said("a_loss_that_nobody_was_told_of", &at, wanted);
}

#[test]
fn three_receivers_of_a_hundred_are_told_of() {
    if is_part() {
        let recorder = Recorder::for_test("hundred");
        // The first receiver is made here.
        let (orders, first) = broadcast::channel(1);
        recorder.name(&orders, "orders");
        // The others are made here.
        let receivers: Vec<_> = (1..100).map(|_| orders.subscribe()).collect();
        send("desk", &orders, 1);
        send("desk", &orders, 2);
        std::mem::forget((orders, first, receivers));
        // A hundred were made when the test fails here.
        panic!("the test fails");
    }
    let wanted = "\
failed: three_receivers_of_a_hundred_are_told_of at rust/tests/failing.rs:NN: the test fails
error: receiver 1 (created at rust/tests/failing.rs:NN) lost 1 of 2 values of `orders` (capacity 1)
  --> rust/tests/failing.rs:NN:35
note: the panic, it had not been told by then
  --> rust/tests/failing.rs:NN:9
  call 101    orders.send(its 2nd value)   desk                                      rust/tests/failing.rs:NN    overwrote its 1st value, which receiver 1 had not read
  the panic   held, never read             three_receivers_of_a_hundred_are_told_of  rust/tests/failing.rs:NN
  lost: its 1st value
warning: receiver 2 (created at rust/tests/failing.rs:NN) lost 1 of 2 values of `orders` (capacity 1)
  --> rust/tests/failing.rs:NN:35
  call 101    orders.send(its 2nd value)   desk                                      rust/tests/failing.rs:NN    overwrote its 1st value, which receiver 2 had not read
  the panic   held, never read             three_receivers_of_a_hundred_are_told_of  rust/tests/failing.rs:NN
  lost: its 1st value
warning: receiver 3 (created at rust/tests/failing.rs:NN) lost 1 of 2 values of `orders` (capacity 1)
  --> rust/tests/failing.rs:NN:35
  call 101    orders.send(its 2nd value)   desk                                      rust/tests/failing.rs:NN    overwrote its 1st value, which receiver 3 had not read
  the panic   held, never read             three_receivers_of_a_hundred_are_told_of  rust/tests/failing.rs:NN
  lost: its 1st value
and 97 more receivers lost 97 values
look: file://DIR/hundred.html#call=101
";
    let source = include_str!("failing.rs");
    let first = line_after(source, "// The first receiver is made here.");
    let others = line_after(source, "// The others are made here.");
    let failed = line_after(source, "// A hundred were made when");
    let others = [others, SEND, SEND, failed];
    let at = [
        &[failed, first, SEND, failed, SEND, failed],
        &others[..],
        &others,
    ]
    .concat();
    assert_said("three_receivers_of_a_hundred_are_told_of", &at, wanted);
}

#[test]
fn a_close_that_nobody_has_read_up_to() {
    if is_part() {
        let recorder = Recorder::for_test("closed");
        let (orders, mut audit) = broadcast::channel(4);
        let screen = orders.subscribe();
        recorder.name(&orders, "orders").name(&screen, "screen");
        send("desk", &orders, 1);
        block_on(named("desk", async { drop(orders) }));
        receive("audit", &mut audit).unwrap();
        assert_eq!(receive("audit", &mut audit), Err(TryRecvError::Closed));
        std::mem::forget(screen);
        // The test fails after the close.
        panic!("the test fails");
    }
    let wanted = "\
failed: a_close_that_nobody_has_read_up_to at rust/tests/failing.rs:NN: the test fails
warning: `orders` closed, and 1 of 2 receivers were told
  --> rust/tests/failing.rs:NN:35
  call 3   dropped the last sender   desk
  call 5   told: closed              audit  rust/tests/failing.rs:NN   after 1 more value
  not that far: `screen`
yovanelum: no value was lost in 6 calls on 1 channel
look: file://DIR/closed.html#call=3
";
    let failed = line_after(include_str!("failing.rs"), "// The test fails after");
    let at = [failed, RECEIVE, RECEIVE];
    assert_said("a_close_that_nobody_has_read_up_to", &at, wanted);
}

#[test]
fn a_watch_whose_changes_nobody_learned_of() {
    if is_part() {
        let recorder = Recorder::for_test("unseen");
        let (state, worker) = watch::channel("open");
        recorder.name(&state, "state").name(&worker, "worker");
        recorder.show(&state, |state| state.to_string());
        for text in ["closing", "closed"] {
            // The state is sent here.
            block_on(named("desk", async { state.send(text) })).unwrap();
        }
        std::mem::forget((state, worker));
        // The test fails after the changes.
        panic!("the test fails");
    }
    let wanted = "\
failed: a_watch_whose_changes_nobody_learned_of at rust/tests/failing.rs:NN: the test fails
warning: `worker` never learned of 2 of 2 changes of `state`
  --> rust/tests/failing.rs:NN:50
  call 2   state.send(\"closed\")   desk  rust/tests/failing.rs:NN   the last change
yovanelum: no value was lost in 2 calls on 1 channel
look: file://DIR/unseen.html#call=2
";
    let source = include_str!("failing.rs");
    let at = line_after(source, "// The state is sent here.");
    let failed = line_after(source, "// The test fails after the changes.");
    assert_said(
        "a_watch_whose_changes_nobody_learned_of",
        &[failed, at, at],
        wanted,
    );
}

#[test]
fn a_folder_that_cannot_be_written_is_said_in_one_line() {
    if is_part() {
        let _recorder = Recorder::for_test("unwritten");
        let (orders, _audit) = broadcast::channel(4);
        orders.send(1).unwrap();
        panic!("the test fails");
    }
    let test = "a_folder_that_cannot_be_written_is_said_in_one_line";
    let folder = Folder::new(test);
    fs::create_dir(folder.0.join("built")).unwrap();
    fs::write(folder.0.join("built/yovanelum"), "a file, and no folder").unwrap();
    let (succeeds, said) = played(test, &folder);
    let [_, report, fault] = &said[..] else {
        panic!("{said:#?}");
    };
    assert!(!succeeds);
    assert_eq!(
        report,
        "yovanelum: no value was lost in 3 calls on 1 channel"
    );
    let fault = fault.replace('\\', "/");
    let start = "yovanelum: DIR/unwritten.journal isn't written: ";
    assert!(fault.starts_with(start), "{fault}");
}

#[test]
fn a_name_of_300_characters_has_its_files() {
    if is_part() {
        let _recorder = Recorder::for_test(&"é".repeat(300));
        let (orders, _audit) = broadcast::channel(4);
        orders.send(1).unwrap();
        panic!("the test fails");
    }
    let test = "a_name_of_300_characters_has_its_files";
    let folder = Folder::new(test);
    let (succeeds, said) = played(test, &folder);
    assert!(!succeeds && said[2].starts_with("look: "), "{said:#?}");
    let written = fs::read_dir(files(&folder.0)).unwrap();
    assert_eq!(written.count(), 3, "journal, names and page");
}

/// A test that returns an error, if it is to.
fn result(fails: bool) -> Result<(), TryRecvError> {
    let recorder = Recorder::for_test("result");
    // It has no name.
    let (orders, mut audit) = broadcast::channel(4);
    if !fails {
        orders.send(1).unwrap();
    }
    // The error is passed on here.
    recorder.save_on_err(audit.try_recv().map(drop))
}

#[test]
fn a_test_that_returns_an_error_is_told_of() {
    if is_part() {
        assert_eq!(result(true), Err(TryRecvError::Empty));
        return;
    }
    let test = "a_test_that_returns_an_error_is_told_of";
    let folder = Folder::new(test);
    let at = line_after(
        include_str!("failing.rs"),
        "// The error is passed on here.",
    );
    let channel = line_after(include_str!("failing.rs"), "// It has no name.");
    let channel = format!("channel of rust/tests/failing.rs:{channel}");
    let wanted = format!(
        "failed: {test} at rust/tests/failing.rs:{at} returned Empty; call 1 was {channel}: try_recv(): Empty
error: `{test}` found nothing: nothing was sent to the {channel}
  --> rust/tests/failing.rs:{at}:32
  call 1   found nothing   {test}  rust/tests/failing.rs:{at}   {channel}: try_recv()
look: file://DIR/result.html#call=1"
    );
    let wanted = wanted.lines().map(String::from).collect();
    assert_eq!(played(test, &folder), (true, wanted));
    assert!(files(&folder.0).join("result.journal").exists());
}

#[test]
fn a_test_that_returns_ok_writes_nothing() {
    if is_part() {
        assert_eq!(result(false), Ok(()));
        return;
    }
    let test = "a_test_that_returns_ok_writes_nothing";
    let folder = Folder::new(test);
    assert_eq!(played(test, &folder), (true, vec![]));
    assert!(!files(&folder.0).exists());
}

/// Its drop runs a test of its own, which panics too and is caught.
struct TestsItself;

impl Drop for TestsItself {
    fn drop(&mut self) {
        let second = || {
            let _recorder = Recorder::for_test("second");
            drop(broadcast::Sender::<u32>::new(4));
            panic!("the second panic");
        };
        let _ = catch_unwind(AssertUnwindSafe(second));
        // This one doesn't panic itself, but it is dropped while the thread does.
        let _recorder = Recorder::for_test("third");
        drop(broadcast::Sender::<u32>::new(4));
    }
}

/// The test measures the wait, and prints that.
#[test]
fn a_wait_that_was_dropped_is_told_with_how_long_it_took() {
    if is_part() {
        let recorder = Recorder::for_test("waited");
        let (orders, mut audit) = broadcast::channel::<u32>(2);
        recorder.name(&orders, "orders");
        let mut receive = Box::pin(audit.recv());
        let before = Instant::now();
        assert!(
            receive
                .as_mut()
                .poll(&mut Context::from_waker(Waker::noop()))
                .is_pending()
        );
        let waits = Instant::now();
        // It is this time that is told.
        thread::sleep(Duration::from_millis(30));
        let dropping = Instant::now();
        drop(receive);
        let Measured { least, most } = Measured::between([before, waits, dropping, Instant::now()]);
        panic!("no order in {least} to {most} us");
    }
    let test = "a_wait_that_was_dropped_is_told_with_how_long_it_took";
    let folder = Folder::new(test);
    let (succeeds, said) = play(test, &folder.0, None);
    assert!(!succeeds, "{said}");
    let (least, most) = between(&said, "no order in ", " us")
        .split_once(" to ")
        .unwrap();
    let [least, most] = [least, most].map(|it| it.parse().unwrap());
    let measured = Measured { least, most };
    let head = between(&said, "error: `orders.recv` of ", "\n");
    let waited = between(
        head,
        " waited ",
        " and was dropped: nothing was sent to `orders`",
    );
    assert!(measured.is_said(waited), "{measured:?}: {said}");
    let journal = files(&folder.0).join("waited.journal");
    let why = Command::new(env!("CARGO_BIN_EXE_yovanelum"))
        .arg("why")
        .arg(journal)
        .arg("--json")
        .output()
        .unwrap();
    let json = String::from_utf8(why.stdout).unwrap();
    let waited = between(&json, "\"waited\": ", ", ").parse().unwrap();
    assert!(measured.is(waited), "{measured:?}: {json}");
}

#[test]
fn a_second_panic_while_one_unwinds_writes_nothing() {
    if is_part() {
        let _recorder = Recorder::for_test("first");
        drop(broadcast::Sender::<u32>::new(4));
        let _tests_itself = TestsItself;
        panic!("the first panic");
    }
    let test = "a_second_panic_while_one_unwinds_writes_nothing";
    let folder = Folder::new(test);
    let (succeeds, said) = played(test, &folder);
    let at = line_after(
        include_str!("failing.rs"),
        "let _tests_itself = TestsItself;",
    );
    let wanted = [
        // The second panic was caught within the drop.
        &format!(
            "failed: {}… at rust/tests/failing.rs:{at}: the first panic",
            &test[..40]
        ),
        "yovanelum: no value was lost in 2 calls on 1 channel",
        "look: file://DIR/first.html#call=2",
    ];
    assert_eq!((succeeds, said), (false, wanted.map(String::from).into()));
    let files = fs::read_dir(files(&folder.0)).unwrap();
    assert_eq!(files.count(), 3, "journal, names and page of the first");
}

#[test]
#[cfg_attr(windows, ignore = "page/open is a script of Unix")]
fn the_page_is_the_one_that_page_open_writes() {
    if is_part() {
        let recorder = Recorder::for_test("a/b");
        let (orders, _audit) = broadcast::channel(4);
        recorder.name(&orders, "orders");
        orders.send(1).unwrap();
        panic!("the test fails");
    }
    let open = Path::new(env!("CARGO_MANIFEST_DIR")).join("../page/open");
    if !open.exists() {
        return;
    }
    let test = "the_page_is_the_one_that_page_open_writes";
    let folder = Folder::new(test);
    let (succeeds, said) = played(test, &folder);
    assert!(
        !succeeds && said[2] == "look: file://DIR/a%252Fb.html#call=1",
        "{said:#?}"
    );
    let journal = files(&folder.0).join("a%2Fb.journal");
    let opened = Command::new(open).arg(&journal).output().unwrap();
    assert!(opened.status.success());
    let wanted = fs::read(journal.with_extension("journal.html")).unwrap();
    assert!(fs::read(journal.with_extension("html")).unwrap() == wanted);
}

/// Polls a future once, which waits, and forgets it together with what it borrows.
fn leave_waiting(future: impl Future + 'static) {
    let mut future = Box::pin(future);
    let mut context = Context::from_waker(Waker::noop());
    assert!(future.as_mut().poll(&mut context).is_pending());
    mem::forget(future);
}

#[test]
fn who_was_woken_before_the_failure_is_not_told_to_wait() {
    if is_part() {
        let recorder = Recorder::for_test("woken");
        let (prices, audit) = broadcast::channel(4);
        let (orders, clerk) = broadcast::channel::<u32>(4);
        recorder.name(&prices, "prices").name(&orders, "orders");
        let screen = prices.subscribe();
        for (name, receiver) in [("audit", audit), ("screen", screen), ("clerk", clerk)] {
            let receiver = Box::leak(Box::new(receiver));
            // Each of them waits here.
            leave_waiting(named(name, receiver.recv()));
        }
        send("desk", &prices, 101);
        // The unwinding drops the sender of orders, which wakes the clerk.
        panic!("the test fails");
    }
    let folder = Folder::new("woken");
    let test = "who_was_woken_before_the_failure_is_not_told_to_wait";
    let (_, said) = played(test, &folder);
    let source = include_str!("failing.rs");
    let at = format!(
        "rust/tests/failing.rs:{}",
        line_after(source, "// Each of them waits here.")
    );
    // The subscribe is call 1, and the send is the only one behind it.
    let came =
        format!("which hasn't run since a value came (call 2, rust/tests/failing.rs:{SEND})");
    let wanted = format!(
        "still waiting: audit in `prices.recv` since call 1, {at}, {came}; \
        screen in `prices.recv` since call 1, {at}, {came}; clerk in `orders.recv` since call 1, {at}"
    );
    let told: Vec<_> = said
        .iter()
        .filter(|line| line.starts_with("still waiting: "))
        .collect();
    assert_eq!(told, [&wanted]);
    let names = fs::read_to_string(files(&folder.0).join("woken.names")).unwrap();
    let waiting = between(&names, "\"waiting\": [", "]");
    let woken: Vec<_> = waiting
        .split("\"woken\": ")
        .skip(1)
        .map(|it| &it[..4])
        .collect();
    assert_eq!(woken, ["true", "true", "fals"]);
}
