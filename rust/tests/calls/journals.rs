//! What a recorder records, and at which limits recording ends.

use crate::support::named::{checksum, member};
use crate::support::{accepted, console, kept_journal, poll_once, temporary};
use std::ffi::OsString;
use std::fs;
use std::path::Path;
use std::process::Command;
use std::thread;
use yovanelum::{Recorder, broadcast, named, watch};

#[test]
fn the_journal_of_a_run() {
    let recorder = Recorder::new();
    let _entered = recorder.enter();
    let (tx, mut rx) = broadcast::channel(2);
    for price in [10, 20, 30] {
        tx.send(price).unwrap();
    }
    assert!(rx.try_recv().is_err());
    let (level, _seen) = watch::channel(5);
    level.send(6).unwrap();
    assert_eq!(rx.try_recv(), Ok(20));
    assert_eq!(poll_once(rx.recv()), Some(Ok(30)));
    assert_eq!(poll_once(rx.recv()), None);
    drop(tx);
    let wanted = "ttd-journal 2\nbroadcast 2\nwatch 0\nsteps\n\
        1 0 0 send 0 0 = sent 1\n2 0 0 send 0 1 = sent 1\n3 0 0 send 0 2 = sent 1\n4 0 0 try-recv 1 = lagged 1\n\
        5 0 1 send 0 1 = stored\n6 0 0 try-recv 1 = value 1\n7 0 0 recv 1 = value 2\n\
        9 0 0 drop 0 = dropped\nend\n";
    let journal = recorder.journal().unwrap();
    // The call that would have waited took one or two numbers of the clock, and left no entry.
    let (start, end) = journal.split_at(journal.rfind(" 0 0 drop").unwrap());
    let number = start.rfind('\n').unwrap() + 1;
    assert_eq!(format!("{}9{end}", &start[..number]), wanted);
    assert_eq!(accepted(&recorder, "run"), 8);
}

#[test]
fn the_program_that_judges_journals_is_the_named_one_or_that_of_the_checkout() {
    let (built, named) = (std::env::current_exe().unwrap(), OsString::from("named"));
    assert_eq!(console::chosen(Some(named), Some(&built)), "named");
    assert_eq!(console::chosen(None, Some(&built)), built);
}

#[test]
#[should_panic(expected = "no program judges this journal: set YOVANELUM_TTD to a `ttd`, such as")]
fn a_test_that_has_no_program_to_judge_its_journal_fails() {
    console::chosen(None, Some(Path::new("no/such/ttd")));
}

#[test]
fn a_channel_made_in_mid_run_is_recorded_too() {
    let recorder = Recorder::new();
    let entered = recorder.enter();
    let (tx, _rx) = broadcast::channel(4);
    tx.send(1).unwrap();
    let (late, _late_rx) = broadcast::channel(1);
    tx.send(2).unwrap();
    late.send(3).unwrap();
    drop(entered);
    let (other, _other_rx) = broadcast::channel(1);
    other.send(4).unwrap();
    assert_eq!(accepted(&recorder, "late"), 3);
    // The last one has no recorder.
    assert!(Recorder::of(&other).is_none());
    assert_eq!(Recorder::of(&late).unwrap().len(), 3);
}

#[test]
fn guards_of_entered_recorders_may_be_dropped_in_any_order() {
    let (first, second) = (Recorder::new(), Recorder::new());
    // Two calls of each channel are recorded: the drops of its sender and its receiver.
    let open = || drop(broadcast::channel::<u8>(2));
    let entered_first = first.enter();
    let entered_second = second.enter();
    open();
    assert_eq!((first.len(), second.len()), (0, 2));
    drop(entered_first);
    open();
    assert_eq!((first.len(), second.len()), (0, 4));
    drop(entered_second);
    open();
    assert_eq!((first.len(), second.len()), (0, 4));
}

#[test]
fn what_a_cancelled_future_drops_is_dropped_by_its_actor() {
    let recorder = Recorder::new();
    let _entered = recorder.enter();
    let (tx, rx) = broadcast::channel::<u8>(2);
    tx.send(1).unwrap();
    let waits = named("cancelled", async move {
        let _rx = rx;
        std::future::pending::<()>().await;
    });
    assert_eq!(poll_once(waits), None);
    drop(tx.clone());
    let journal = recorder.journal().unwrap();
    // The cancelled future is the second actor. The thread is still the first.
    assert!(journal.contains("\n2 1 0 drop 1 = dropped\n"), "{journal}");
    assert!(journal.contains("\n4 0 0 drop 2 = dropped\n"), "{journal}");
    // Of its two drops of receivers and senders, only the future's is one of a cancelled future.
    assert_eq!(member(&recorder.names(), "cancelled"), r#"{"0": [1]}"#);
}

#[test]
fn names_stand_beside_the_journal() {
    let recorder = Recorder::new();
    let _entered = recorder.enter();
    let line = line!();
    let (tx, mut rx) = broadcast::channel::<u32>(2);
    let (level, _seen) = watch::channel(1.5);
    recorder
        .name(&tx, "prices")
        .name(&rx, "chart")
        .show(&tx, |price| format!("{price} EUR"));
    recorder
        .name(&level, "level")
        .show(&level, |level| format!("{level:.2}"));
    let task = named("ticker", async move {
        tx.send(7).unwrap();
        level.send_modify(|level| *level *= 2.0);
    });
    poll_once(task).unwrap();
    rx.try_recv().unwrap();
    let folder = temporary::path("names");
    fs::create_dir_all(&folder).unwrap();
    recorder.save(folder.join("run.journal")).unwrap();
    let thread = thread::current().name().unwrap().to_string();
    // Each call is some lines below, and drops have no line.
    let file = format!("{:?}", file!());
    let [line_1, line_2, line_11, line_12, line_15] = [1, 2, 11, 12, 15].map(|below| line + below);
    // That of the workspace, by which rustc names them.
    let folder_of_sources = Path::new(env!("CARGO_MANIFEST_DIR")).parent().unwrap();
    let source = checksum(include_bytes!("journals.rs"));
    let journal = recorder.journal().unwrap();
    let of_journal = checksum(journal.as_bytes());
    let wanted = format!(
        r#"{{
  "version": 3,
  "actors": {{"0": "ticker", "1": "{thread}"}},
  "channels": {{"0": "prices", "1": "level"}},
  "values": {{"0": {{"0": "7 EUR"}}, "1": {{"0": "1.50", "1": "3.00"}}}},
  "handles": {{"0": {{"1": "chart"}}}},
  "locations": [[{file}, {line_1}, 24], [{file}, {line_11}, 12], [{file}, {line_15}, 8], [{file}, {line_2}, 26], [{file}, {line_12}, 15]],
  "made": {{"0": {{"0": 0, "1": 0}}, "1": {{"0": 3, "1": 3}}}},
  "calls": {{"0": [1, null, 2], "1": [4, null]}},
  "made_by": {{"0": ["{thread}", 0], "1": ["{thread}", 1]}},
  "root": {folder_of_sources:?},
  "sources": {{{file}: "{source}"}},
  "journal": "{of_journal}"
}}
"#
    );
    assert_eq!(
        fs::read_to_string(folder.join("run.names")).unwrap(),
        wanted
    );
    assert_eq!(
        fs::read_to_string(folder.join("run.journal")).unwrap(),
        journal
    );
    fs::remove_dir_all(folder).unwrap();
}

#[test]
fn quiet_questions_leave_no_entry() {
    let recorder = Recorder::new();
    let _entered = recorder.enter();
    let (tx, rx) = broadcast::channel::<u8>(2);
    let (level, seen) = watch::channel(0);
    let ask = || {
        let counts = (tx.len(), tx.receiver_count(), rx.len());
        let flags = (
            *level.borrow(),
            *seen.borrow(),
            level.is_closed(),
            seen.has_changed().unwrap(),
            level.receiver_count(),
        );
        (counts, flags)
    };
    let first = ask();
    assert_eq!(
        (first, recorder.len()),
        (((0, 1, 0), (0, 0, false, false, 1)), 8)
    );
    recorder.quiet_questions();
    assert_eq!((ask(), recorder.len()), (first, 8));
}

#[test]
#[cfg_attr(target_family = "wasm", ignore = "WebAssembly has no processes")]
fn installed_recorders_have_the_channels_of_all_threads_until_they_no_longer_are() {
    // Runs in a process of its own, since the channels of other tests would be recorded too.
    if std::env::var_os("YOVANELUM_TEST_INSTALL").is_none() {
        let program = std::env::current_exe().unwrap();
        let ran = Command::new(program)
            .args([
                "--exact",
                "journals::installed_recorders_have_the_channels_of_all_threads_until_they_no_longer_are",
            ])
            .env("YOVANELUM_TEST_INSTALL", "1")
            .output()
            .unwrap();
        let said = String::from_utf8_lossy(&ran.stdout);
        // The name is that of this test, not of none.
        assert!(ran.status.success() && said.contains(" 1 passed"), "{said}");
        return;
    }
    // Two calls of each channel are recorded: the drops of its sender and its receiver.
    let open = || drop(broadcast::channel::<u8>(2));
    let (first, second, entered) = (Recorder::new(), Recorder::new(), Recorder::new());
    let counts = || (first.len(), second.len(), entered.len());
    let installed_first = first.install();
    thread::spawn(open).join().unwrap();
    assert_eq!(counts(), (2, 0, 0));
    let installed_second = second.install();
    let guard = entered.enter();
    open();
    assert_eq!(counts(), (2, 0, 2));
    drop(guard);
    open();
    assert_eq!(counts(), (2, 2, 2));
    // They may end in any order, and on any thread.
    thread::spawn(move || drop(installed_first)).join().unwrap();
    thread::spawn(open).join().unwrap();
    assert_eq!(counts(), (2, 4, 2));
    drop(installed_second);
    thread::spawn(open).join().unwrap();
    open();
    assert_eq!(counts(), (2, 4, 2));
}

#[test]
#[cfg_attr(target_family = "wasm", ignore = "WebAssembly has no threads")]
fn a_failing_test_keeps_its_journal() {
    let name = temporary::name("failing");
    let failed = thread::spawn({
        let name = name.clone();
        move || {
            let _recorder = Recorder::for_test(&name);
            let (tx, _rx) = broadcast::channel(2);
            tx.send(1).unwrap();
            panic!("the test fails");
        }
    });
    assert!(failed.join().is_err());
    let path = kept_journal(&name);
    let journal = fs::read_to_string(&path).unwrap();
    assert!(journal.contains("send 0 0 = sent 1"), "{journal}");
    assert!(journal.contains("drop 0 = dropped"), "{journal}");
    fs::remove_file(path.with_extension("names")).unwrap();
    fs::remove_file(path).unwrap();
}

#[test]
#[cfg_attr(target_family = "wasm", ignore = "WebAssembly has no processes")]
fn a_test_that_passes_leaves_nothing() {
    let name = temporary::name("passing");
    drop(Recorder::for_test(&name));
    let found = std::env::current_exe().unwrap().ancestors().any(|folder| {
        folder
            .join("yovanelum")
            .join(format!("{name}.journal"))
            .exists()
    });
    assert!(!found);
}

#[test]
#[cfg_attr(target_family = "wasm", ignore = "WebAssembly has no threads")]
fn a_hundred_actors_share_64_numbers() {
    let recorder = Recorder::new();
    let _entered = recorder.enter();
    let (tx, _rx) = broadcast::channel(4);
    for number in 0..100 {
        let tx = tx.clone();
        let thread = thread::Builder::new()
            .name(format!("actor {number}"))
            .spawn(move || tx.send(number).unwrap())
            .unwrap();
        thread.join().unwrap();
    }
    let journal = recorder.journal().unwrap();
    assert!(journal.contains(" 63 0 send"), "{journal}");
    assert!(!journal.contains(" 64 0 send"), "{journal}");
    assert!(
        recorder.names().contains(" and 37 others"),
        "{}",
        recorder.names()
    );
    assert_eq!(accepted(&recorder, "hundred"), 300);
}
