//! What is written to standard error. Each test runs this program again for its part, as a process
//! whose output can be read.

mod support;

use std::env;
use std::fs;
use std::path::Path;
use support::parts::{self, Folder, is_part, line_after, our_lines, replay_line};
use yovanelum::{Recorder, broadcast};

/// Returns whether the part of this test succeeds, and the lines of this crate that it writes to
/// standard error.
fn played(test: &str, folder: &Path, keep: Option<&str>) -> (bool, Vec<String>) {
    let (succeeds, said) = parts::play(test, folder, keep);
    (succeeds, our_lines(&said))
}

/// Returns the lines about a run of one send. Asserts that the journal, its names and the page with
/// both exist.
fn kept(name: &str, test: &str, folder: &Path, call: u64) -> Vec<String> {
    let path = parts::files(folder).join(format!("{name}.journal"));
    let journal = fs::read_to_string(&path).unwrap();
    assert!(journal.contains(" send 0 0 = sent 1\n"), "{journal}");
    assert!(path.with_extension("names").exists());
    let page = path.with_extension("html");
    assert!(page.exists());
    // The entries are the send and two drops, the receiver's first.
    vec![
        "yovanelum: no value was lost in 3 calls on 1 channel".to_string(),
        format!("look: {}#call={call}", parts::address(&page)),
        replay_line(&path, test),
    ]
}

fn send_for_test(name: &str) {
    let _recorder = Recorder::for_test(name);
    let (tx, _rx) = broadcast::channel(2);
    tx.send(1).unwrap();
    if name == "fails" {
        panic!("the test fails");
    }
}

#[test]
fn a_test_that_fails_says_what_happened_and_where_to_look() {
    if is_part() {
        return send_for_test("fails");
    }
    let folder = Folder::new("fails");
    let test = "a_test_that_fails_says_what_happened_and_where_to_look";
    let (succeeds, said) = played(test, &folder.0, None);
    // Of the name of the test's thread, a report has 40 characters.
    let line = line_after(include_str!("standard_error.rs"), "if name == \"fails\" {");
    let failed = format!(
        "failed: {}… at rust/tests/standard_error.rs:{line}: the test fails",
        &test[..40]
    );
    let wanted = [vec![failed], kept("fails", test, &folder.0, 1)].concat();
    assert_eq!((succeeds, said), (false, wanted));
}

#[test]
fn a_test_that_passes_says_so_where_the_journal_is_to_be_kept() {
    if is_part() {
        return send_for_test("passes");
    }
    let folder = Folder::new("passes");
    let test = "a_test_that_passes_says_so_where_the_journal_is_to_be_kept";
    assert_eq!(played(test, &folder.0, None), (true, vec![]));
    assert!(!parts::files(&folder.0).exists());
    let (succeeds, said) = played(test, &folder.0, Some("1"));
    assert_eq!((succeeds, said), (true, kept("passes", test, &folder.0, 3)));
}

#[test]
fn that_recording_ended_is_said_once() {
    if is_part() {
        let recorder = Recorder::new();
        let _entered = recorder.enter();
        let (tx, _rx) = broadcast::channel(2);
        let (other, _other_rx) = broadcast::channel(2);
        for value in 0..1_048_580 {
            tx.send(value).unwrap();
        }
        other.send(0).unwrap();
        return;
    }
    let folder = Folder::new("ended");
    let (succeeds, said) = played("that_recording_ended_is_said_once", &folder.0, None);
    let [line] = &said[..] else {
        panic!("{said:#?}");
    };
    assert!(
        succeeds && line.contains("(1048576); recording ended there"),
        "{line}"
    );
}

/// Asserts that the part of this test succeeds, and writes two lines: one of its own that says what
/// was made, and one with these words.
fn says_once(test: &str, words: &[&str]) {
    let folder = Folder::new(test);
    let (succeeds, said) = played(test, &folder.0, None);
    let [own, line] = &said[..] else {
        panic!("{said:#?}");
    };
    assert!(succeeds && own.contains("are made"), "{said:#?}");
    assert!(words.iter().all(|word| line.contains(word)), "{line}");
}

#[test]
fn that_the_65th_channel_is_recorded_by_none_is_said_once() {
    if is_part() {
        let recorder = Recorder::new();
        let _entered = recorder.enter();
        let channels: Vec<_> = (0..64).map(|_| broadcast::channel::<u8>(2)).collect();
        eprintln!("yovanelum: 64 channels are made");
        let _more: Vec<_> = channels
            .iter()
            .map(|_| broadcast::channel::<u8>(2))
            .collect();
        return;
    }
    let test = "that_the_65th_channel_is_recorded_by_none_is_said_once";
    says_once(test, &["64 channels", "recorded by none"]);
}

#[test]
fn that_a_channel_left_the_run_is_said_once() {
    if is_part() {
        let recorder = Recorder::new();
        let _entered = recorder.enter();
        (0..64).for_each(|_| drop(broadcast::channel::<u8>(2)));
        eprintln!("yovanelum: 64 channels are made");
        (0..64).for_each(|_| drop(broadcast::channel::<u8>(2)));
        return;
    }
    let test = "that_a_channel_left_the_run_is_said_once";
    says_once(test, &["64 channels", "leaves it"]);
}

#[test]
fn that_a_channel_makes_more_handles_than_a_journal_names_is_said_once() {
    if is_part() {
        let recorder = Recorder::new();
        let _entered = recorder.enter();
        let channels = [broadcast::channel::<u8>(2), broadcast::channel::<u8>(2)];
        let make = |count: u32| {
            for (tx, _rx) in &channels {
                (0..count).for_each(|_| drop(tx.subscribe()));
            }
        };
        make(65_534);
        eprintln!("yovanelum: 65,536 handles are made");
        make(10);
        return;
    }
    let test = "that_a_channel_makes_more_handles_than_a_journal_names_is_said_once";
    says_once(test, &["as many handles as a journal names (65536)"]);
}

#[test]
fn an_empty_journal_says_what_to_do() {
    if is_part() {
        let _recorder = Recorder::for_test("empty");
        // Another thread's channels aren't recorded.
        std::thread::spawn(|| drop(broadcast::channel::<u8>(2)))
            .join()
            .unwrap();
        panic!("the test fails");
    }
    let folder = Folder::new("empty");
    let (succeeds, said) = played("an_empty_journal_says_what_to_do", &folder.0, None);
    let [line] = &said[..] else {
        panic!("{said:#?}");
    };
    assert!(!succeeds && line.contains("empty recorded nothing: a channel was created at "));
    for form in ["for_test", "enter", "on_thread_start", "scope", "install"] {
        assert!(line.contains(form), "{form} in {line}");
    }
}

#[test]
#[cfg_attr(target_family = "wasm", ignore = "WebAssembly has no threads")]
fn a_dump_says_where_it_is_written() {
    let dumps = || env::current_dir().unwrap().join("dumps");
    if is_part() {
        let recorder = Recorder::flight(10);
        let _entered = recorder.enter();
        recorder.dump_to(dumps());
        let (orders, _audit) = broadcast::channel(2);
        orders.send(71).unwrap();
        let path = recorder.dump("somebody asked").wait().unwrap();
        assert!(path.starts_with(dumps()));
        return println!("{}", path.display());
    }
    let test = "a_dump_says_where_it_is_written";
    let folder = Folder::new(test);
    let (succeeds, said) = played(test, &folder.0, None);
    let [line] = &said[..] else {
        panic!("{said:#?}");
    };
    let path = line.strip_prefix("yovanelum: a dump is written: ").unwrap();
    assert!(succeeds && Path::new(path).is_file(), "{line}");
}
