//! A test that is replayed by the variable `YOVANELUM_REPLAY`. Each test runs this program again
//! for its part, as a process.

mod support;

use std::fs;
use std::io;
use std::path::PathBuf;
use std::process::Command;
use std::sync::atomic::{AtomicBool, Ordering};
use std::sync::mpsc;
use std::thread::{self, JoinHandle};
use std::time::Duration;
#[cfg(target_os = "linux")]
use std::{io::Write, process::Stdio, time::Instant};
#[cfg(target_os = "linux")]
use support::LONG;
use support::parts::{
    Folder, files, is_part, line_after, quoted, replay_line, started, without_options,
};
use yovanelum::{Recorder, broadcast, watch};

/// The variable that says which of two threads is slow, or that Ann waits for Bob.
const SLOW: &str = "YOVANELUM_TEST_SLOW";

/// Whether Bob has bid.
static BOB_HAS_BID: AtomicBool = AtomicBool::new(false);

/// The variable that says how the test was edited since it was recorded.
const EDITED: &str = "YOVANELUM_TEST_EDITED";

fn is_set(variable: &str, to: &str) -> bool {
    std::env::var(variable).is_ok_and(|value| value == to)
}

fn spawn(name: &'static str, run: impl FnOnce() + Send + 'static) -> JoinHandle<()> {
    let thread = thread::Builder::new().name(name.to_string());
    let run = move || {
        if is_set(SLOW, name) {
            thread::sleep(Duration::from_millis(30));
        }
        if name == "Bob" && is_set(SLOW, "for a line") {
            io::stdin().read_line(&mut String::new()).unwrap();
        }
        while name == "Ann" && is_set(SLOW, "waits") && !BOB_HAS_BID.load(Ordering::Relaxed) {
            thread::yield_now();
        }
        run();
        BOB_HAS_BID.fetch_or(name == "Bob", Ordering::Relaxed);
    };
    thread.spawn(run).unwrap()
}

/// The line of the look at the length below. Two lines after it is the receive.
const LOOK: u32 = line!() + 20;

/// Two threads bid, and the test fails where Bob is the first.
fn ann_is_the_first() {
    let recorder = Recorder::for_test("ann_is_the_first");
    let (bids, mut auction) = broadcast::channel(4);
    recorder
        .name(&bids, "bids")
        .show(&bids, |name| format!("bid of {name}"));
    let bidders = ["Ann", "Bob"].map(|name| {
        let bids = bids.clone();
        spawn(name, move || {
            bids.send(name).unwrap();
        })
    });
    drop(bids);
    bidders
        .into_iter()
        .for_each(|bidder| bidder.join().unwrap());
    if is_set(EDITED, "looks first") {
        assert_eq!(auction.len(), 2);
    }
    let first = auction.try_recv().unwrap();
    if is_set(EDITED, "fails otherwise") {
        assert!(first.is_empty(), "\n{first} bids\n  again");
    }
    if !is_set(EDITED, "asserts nothing") {
        assert_eq!(first, "Ann");
    }
}

/// A clerk bids by what a question returns, which leaves no entry. The receive comes before it, or
/// behind all that the clerk does where the variable says so.
fn a_question_decides() {
    let recorder = Recorder::for_test("ann_is_the_first");
    recorder.quiet_questions();
    let (bids, mut auction) = broadcast::channel(4);
    recorder.name(&bids, "bids");
    bids.send("Ann").unwrap();
    let (received, is_received) = mpsc::channel();
    let asks_first = is_set(EDITED, "asks first");
    let clerk = thread::Builder::new().name("clerk".to_string());
    let clerk = clerk.spawn(move || {
        if !asks_first {
            is_received.recv().unwrap();
        }
        let count = bids.len();
        match count {
            0 => drop(bids.subscribe()),
            _ => drop(bids.send("Bob")),
        }
    });
    let mut clerk = Some(clerk.unwrap());
    if asks_first {
        clerk.take().unwrap().join().unwrap();
    }
    assert_eq!(auction.try_recv(), Ok("Ann"));
    let _ = received.send(());
    if let Some(clerk) = clerk {
        clerk.join().unwrap();
    }
    panic!("it is over");
}

/// A test in whose process the variables say which thread is slow, and what is replayed.
struct Part {
    test: &'static str,
    folder: Folder,
}

/// What a process did: whether it succeeded, and its lines on a replay.
type Done = (bool, Vec<String>);

impl Part {
    fn new(test: &'static str) -> Part {
        Part {
            test,
            folder: Folder::new(test),
        }
    }

    fn journal(&self) -> PathBuf {
        files(&self.folder.0).join("ann_is_the_first.journal")
    }

    fn run(&self, slow: &str, with: impl FnOnce(&mut Command)) -> Done {
        let mut part = started(self.test, &self.folder.0);
        part.env(SLOW, slow).arg("--nocapture");
        with(&mut part);
        let ran = part.output().unwrap();
        let said = String::from_utf8(ran.stderr).unwrap();
        let lines = said.lines().filter(|line| !line.starts_with(ANOTHER_RUN));
        let lines = lines.filter(|line| {
            line.starts_with("replay: ")
                || line.starts_with("yovanelum: ") && line.to_lowercase().contains("replay")
        });
        (ran.status.success(), lines.map(without_options).collect())
    }

    /// Records a run in which Bob is the first.
    fn record(&self) {
        let (succeeds, said) = self.run("waits", |_| ());
        let how = replay_line(&self.journal(), self.test);
        assert_eq!((succeeds, said), (false, vec![how]));
    }

    /// Replays that run, while Bob is slow.
    fn replay(&self, with: impl FnOnce(&mut Command)) -> Done {
        self.run("Bob", |part| {
            part.env("YOVANELUM_REPLAY", self.journal());
            with(part);
        })
    }
}

const LINE: &str = "yovanelum: replay of ann_is_the_first.journal: ";

/// How the line of a report begins that says where a replay became another run.
const ANOTHER_RUN: &str = "yovanelum: from call ";

#[test]
fn a_failure_comes_back_and_its_journal_stays() {
    if is_part() {
        return ann_is_the_first();
    }
    let part = Part::new("a_failure_comes_back_and_its_journal_stays");
    part.record();
    let recorded = fs::read(part.journal()).unwrap();
    let (succeeds, said) = part.replay(|_| ());
    let again = part
        .journal()
        .with_file_name("ann_is_the_first.replayed.journal");
    let wanted = [
        format!("{LINE}all 9 calls in the recorded order; the same failure"),
        replay_line(&again, part.test),
    ];
    assert_eq!((succeeds, said), (false, wanted.to_vec()));
    assert_eq!(fs::read(part.journal()).unwrap(), recorded);
    assert!(again.exists());
    // A relative path may be one from a folder above.
    let journal = part.journal();
    let relative = journal.strip_prefix(&part.folder.0).unwrap();
    let below = part.folder.0.join("package");
    fs::create_dir(&below).unwrap();
    let (succeeds, said) = part.replay(|part| {
        part.env("YOVANELUM_REPLAY", relative).current_dir(&below);
    });
    assert_eq!((succeeds, &said[..1]), (false, &wanted[..1]));
}

#[test]
fn a_test_that_passes_in_the_recorded_order_says_so() {
    if is_part() {
        return ann_is_the_first();
    }
    let part = Part::new("a_test_that_passes_in_the_recorded_order_says_so");
    part.record();
    let done = part.replay(|part| {
        part.env(EDITED, "asserts nothing");
    });
    let wanted = format!(
        "{LINE}all 9 calls in the recorded order; \
         the order was replayed and the test passed: the failure isn't one of order alone"
    );
    assert_eq!(done, (true, vec![wanted]));
}

#[test]
fn another_failure_is_said() {
    if is_part() {
        return ann_is_the_first();
    }
    let part = Part::new("another_failure_is_said");
    part.record();
    let (succeeds, said) = part.replay(|part| {
        part.env(EDITED, "fails otherwise");
    });
    let at = line_after(include_str!("replayed.rs"), "\"fails otherwise\") {");
    let wanted = format!(
        "{LINE}all 9 calls in the recorded order; \
         another failure: Bob bids, again, at rust/tests/replayed.rs:{at}"
    );
    assert_eq!((succeeds, &said[0]), (false, &wanted));
}

#[test]
fn a_test_that_was_edited_parts_and_says_where() {
    if is_part() {
        return ann_is_the_first();
    }
    let test = "a_test_that_was_edited_parts_and_says_where";
    let part = Part::new(test);
    part.record();
    let (succeeds, said) = part.replay(|part| {
        part.env(EDITED, "looks first");
    });
    let diverges = format!(
        "diverges at call 8 of 9: expected `try-recv 1` on `bids` by `{test}` at rust/tests/replayed.rs:{}, \
         came `receiver-len 1` on `bids` by `{test}` at rust/tests/replayed.rs:{}",
        LOOK + 2,
        LOOK
    );
    let wanted = [
        format!("yovanelum: the replay {diverges}; from here on, calls are in no order"),
        format!("{LINE}{diverges}; the test passed"),
    ];
    // Out of order, either is the first.
    assert_eq!(&said[..1], &wanted[..1]);
    let end = if succeeds {
        "the test passed"
    } else {
        "the same failure"
    };
    assert_eq!(said[1], wanted[1].replace("the test passed", end));
}

#[test]
fn a_replay_that_diverged_and_failed_says_how_to_compare_it() {
    if is_part() {
        return a_question_decides();
    }
    let test = "a_replay_that_diverged_and_failed_says_how_to_compare_it";
    let part = Part::new(test);
    let compared = |edited: &str| {
        let mut replay = started(test, &part.folder.0);
        replay.env("YOVANELUM_REPLAY", part.journal());
        let said = replay.env(EDITED, edited).arg("--nocapture").output();
        let said = String::from_utf8(said.unwrap().stderr).unwrap();
        let beginning = |start: &str| {
            let lines = said.lines().filter_map(|it| it.strip_prefix(start));
            lines.map(String::from).collect::<Vec<_>>()
        };
        [beginning("compare: "), beginning(ANOTHER_RUN)]
    };
    part.record();
    let again = part.journal().with_extension("replayed.journal");
    let paths = [quoted(&again), quoted(&part.journal())];
    let wanted = format!("yovanelum why {} --against {}", paths[0], paths[1]);
    let [compare, another] = compared("asks first");
    assert_eq!(compare, [wanted]);
    // The first call is the send, and the receive comes behind what the clerk does.
    let is_second = |line: &String| {
        line.starts_with(
            "2 on, this is another run than that of ann_is_the_first.journal: the replay diverges at call 2 of 6: expected ",
        )
    };
    assert!(
        another.len() == 1 && another.iter().all(is_second),
        "{another:?}"
    );
    let answer = Command::new(env!("CARGO_BIN_EXE_yovanelum"))
        .arg("why")
        .arg(&again)
        .arg("--against")
        .arg(part.journal())
        .output();
    let answer = String::from_utf8(answer.unwrap().stdout).unwrap();
    assert!(
        answer.starts_with("the first difference: call "),
        "{answer}"
    );
    // In the recorded order there is nothing to compare.
    assert_eq!(compared(""), [[""; 0], [""; 0]]);
}

#[test]
fn a_replay_that_parts_after_a_quiet_question_names_it() {
    if is_part() {
        return a_question_decides();
    }
    let part = Part::new("a_replay_that_parts_after_a_quiet_question_names_it");
    part.record();
    let (succeeds, said) = part.replay(|part| {
        part.env(EDITED, "asks first");
    });
    let source = include_str!("replayed.rs");
    let asked = line_after(source, "let count = ") - 1;
    let wanted = format!(
        "`send 0` on `bids` by `clerk` at rust/tests/replayed.rs:{}; before that came `sender-len 0` on `bids` by `clerk` at \
         rust/tests/replayed.rs:{asked}, and after `quiet_questions()` no replay orders what it returns; ",
        asked + 3
    );
    assert!(
        !succeeds && said[0].contains(&wanted),
        "{wanted} in {said:?}"
    );
}

#[test]
fn another_test_is_not_replayed_and_what_is_no_journal_is_refused() {
    if is_part() {
        return ann_is_the_first();
    }
    let part = Part::new("another_test_is_not_replayed_and_what_is_no_journal_is_refused");
    let (succeeds, said) = part.run("Bob", |part| {
        part.env("YOVANELUM_REPLAY", "built/another.journal");
    });
    let line = "yovanelum: ann_is_the_first isn't replayed, \
                since YOVANELUM_REPLAY names another journal: built/another.journal";
    // Bob may be the first all the same.
    assert_eq!(said[0], line);
    assert_eq!(succeeds, said.len() == 1, "{said:#?}");

    part.record();
    let names = part.journal().with_extension("names");
    let text = fs::read_to_string(&names).unwrap();
    let (before, _) = text.split_once("  \"journal\": ").unwrap();
    fs::write(
        &names,
        format!("{before}  \"journal\": \"00000000000000ff\"\n}}\n"),
    )
    .unwrap();
    let refused = self::refused(&part);
    let fault = format!("{}: it has the names of another journal", names.display());
    assert!(refused.contains(&fault), "{refused}");

    fs::remove_file(names).unwrap();
    fs::write(
        part.journal(),
        "ttd-journal 2\nbroadcast 4\nsteps\n1 0 0 peek 1 = empty\nend\n",
    )
    .unwrap();
    let refused = self::refused(&part);
    let fault = format!("{}: journal fault malformed 4", part.journal().display());
    assert!(refused.contains(&fault), "{refused}");
}

/// Returns what a test says whose replay is refused.
fn refused(part: &Part) -> String {
    let mut refused = started(part.test, &part.folder.0);
    refused
        .env("YOVANELUM_REPLAY", part.journal())
        .arg("--nocapture");
    let said = String::from_utf8(refused.output().unwrap().stderr).unwrap();
    let start = "yovanelum: YOVANELUM_REPLAY names no journal: ";
    assert!(said.contains(start), "{said}");
    said
}

/// Sends by a closure that changes a watch, and tells of it.
fn a_closure_changes_a_watch() {
    let recorder = Recorder::for_test("ann_is_the_first");
    let (feed, _rx) = watch::channel(7);
    recorder.name(&feed, "feed");
    feed.send_modify(|value| {
        eprintln!("yovanelum: in the replay, the closure has {value}");
        *value = 8;
    });
    panic!("it is over");
}

/// The variable at which a debugger is to see a replay.
const STOP: &str = "YOVANELUM_REPLAY_STOP";

#[test]
fn a_replay_tells_of_the_call_that_a_debugger_is_to_see() {
    if is_part() {
        return ann_is_the_first();
    }
    let part = Part::new("a_replay_tells_of_the_call_that_a_debugger_is_to_see");
    part.record();
    let (succeeds, said) = part.replay(|part| {
        part.env(STOP, "4");
    });
    let is_there = if cfg!(target_os = "linux") {
        "no debugger is attached, so the replay goes on at call 4 of 9, `"
    } else {
        ""
    };
    let start = format!("yovanelum: {is_there}");
    assert!(!succeeds && said[0].starts_with(&start), "{said:#?}");
    let end = format!("{LINE}all 9 calls in the recorded order; the same failure");
    assert_eq!(said[1], end);
    // Each is a number of no call.
    for number in ["0", "10", "soon"] {
        let mut refused = started(part.test, &part.folder.0);
        refused.env("YOVANELUM_REPLAY", part.journal());
        refused.env(STOP, number).arg("--nocapture");
        let said = String::from_utf8(refused.output().unwrap().stderr).unwrap();
        let fault =
            format!("yovanelum: {STOP} is `{number}`, and no number of a call: the journal has 9");
        assert!(said.lines().any(|line| line == fault), "{said}");
    }
}

#[test]
fn a_debugger_sees_a_watch_before_a_closure_changes_it() {
    if is_part() {
        return a_closure_changes_a_watch();
    }
    let part = Part::new("a_debugger_sees_a_watch_before_a_closure_changes_it");
    let (_, said) = part.run("", |_| ());
    assert_eq!(said.len(), 2, "{said:#?}");
    let (_, said) = part.replay(|part| {
        part.env(STOP, "1");
    });
    assert!(said[0].contains(" call 1 of "), "{said:#?}");
    assert!(said[0].contains(", `modify 0` on `feed` by `"), "{said:#?}");
    assert_eq!(said[1], "yovanelum: in the replay, the closure has 7");
    // It stops once.
    assert_eq!(
        said.iter()
            .filter(|line| line.contains(" call 1 of "))
            .count(),
        1
    );
}

/// Waits until the thread of Ann in a process is in this state, as the system's letter says. She
/// is gone for ever where she didn't wait long enough for this test to look.
#[cfg(target_os = "linux")]
fn wait_for_ann(process: u32, state: char) {
    let began = Instant::now();
    let is_ann = |thread: &PathBuf| {
        fs::read_to_string(thread.join("comm")).is_ok_and(|name| name.trim_end() == "Ann")
    };
    let state_of = |thread: PathBuf| {
        let stat = fs::read_to_string(thread.join("stat")).ok()?;
        stat.rsplit_once(") ")?.1.chars().next()
    };
    while began.elapsed() < LONG {
        let threads = fs::read_dir(format!("/proc/{process}/task")).unwrap();
        let mut threads = threads.map(|thread| thread.unwrap().path());
        if threads.find(is_ann).and_then(state_of) == Some(state) {
            return;
        }
        thread::yield_now();
    }
    panic!("no thread of Ann in state {state}");
}

#[cfg(target_os = "linux")]
#[test]
fn a_program_that_was_stopped_for_long_goes_on_in_order() {
    if is_part() {
        return ann_is_the_first();
    }
    let part = Part::new("a_program_that_was_stopped_for_long_goes_on_in_order");
    part.record();
    let mut command = started(part.test, &part.folder.0);
    command
        .arg("--nocapture")
        .env("YOVANELUM_REPLAY", part.journal())
        .env(SLOW, "for a line")
        .stdin(Stdio::piped())
        .stdout(Stdio::null())
        .stderr(Stdio::piped());
    let mut child = command.spawn().unwrap();
    let process = child.id();
    let signal = |name: &str| {
        let sent = Command::new("kill")
            .args([name, &process.to_string()])
            .status();
        assert!(sent.unwrap().success());
    };
    // Ann waits for the turn of Bob, who waits for a line, which comes when the program was stopped
    // for longer than she waits.
    wait_for_ann(process, 'S');
    signal("-STOP");
    wait_for_ann(process, 'T');
    thread::sleep(Duration::from_secs(4));
    child.stdin.take().unwrap().write_all(b"go on\n").unwrap();
    signal("-CONT");
    let said = child.wait_with_output().unwrap().stderr;
    let said = String::from_utf8(said).unwrap();
    assert!(
        said.contains("all 9 calls in the recorded order; the same failure"),
        "{said}"
    );
}

/// The line at which a channel is made below.
const MADE: u32 = line!() + 4;

/// Makes two channels.
fn make_channels() {
    let _first = broadcast::channel::<u8>(2);
    let _second = broadcast::channel::<u8>(2);
}

#[test]
fn that_no_recorder_follows_is_said_once() {
    if is_part() {
        // Nobody is to follow here.
        let off = Recorder::off().enter();
        drop(broadcast::channel::<u8>(2));
        drop(off);
        make_channels();
        return make_channels();
    }
    let part = Part::new("that_no_recorder_follows_is_said_once");
    let said = part.run("", |part| {
        part.env("YOVANELUM_REPLAY", "built/any.journal");
    });
    let line = format!(
        "yovanelum: YOVANELUM_REPLAY is set, and no recorder follows it for the channel that is created at \
         rust/tests/replayed.rs:{MADE}: its calls are in no order"
    );
    assert_eq!(said, (true, vec![line]));
    assert_eq!(part.run("", |_| ()), (true, vec![]));
}

#[test]
fn that_a_recorder_of_a_test_does_not_follow_is_said() {
    if is_part() {
        let recorder = Recorder::new();
        let _entered = recorder.enter();
        let _saved = recorder.save_on_panic("by_a_guard");
        return make_channels();
    }
    let part = Part::new("that_a_recorder_of_a_test_does_not_follow_is_said");
    let (succeeds, said) = part.run("", |part| {
        part.env("YOVANELUM_REPLAY", "built/by_a_guard.journal");
    });
    let line = "yovanelum: by_a_guard isn't replayed, though YOVANELUM_REPLAY names its journal: ";
    assert!(
        succeeds && said.len() == 1 && said[0].starts_with(line),
        "{said:#?}"
    );
}
