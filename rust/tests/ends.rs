//! How a test ends, as its names say it, and the files of a test that ends with its process. Each
//! test runs this program again for its part.

mod support;

use std::panic::{AssertUnwindSafe, catch_unwind};
use std::path::Path;
use std::{fs, thread};
use support::named::{checksum, locations, member};
use support::parts::{Folder, files, is_part, line_after, our_lines, play};
use yovanelum::{Recorder, broadcast, watch};

const SOURCE: &str = include_str!("ends.rs");

/// The names that a test of this program has left, with its journal.
struct Left {
    journal: String,
    names: String,
}

impl Left {
    fn read(folder: &Path, name: &str) -> Left {
        let path = files(folder).join(format!("{name}.journal"));
        let left = Left {
            journal: fs::read_to_string(&path).unwrap(),
            names: fs::read_to_string(path.with_extension("names")).unwrap(),
        };
        let sum = checksum(left.journal.as_bytes());
        assert_eq!(member(&left.names, "journal"), format!("\"{sum}\""));
        assert!(path.with_extension("html").exists());
        left
    }

    /// The index of the location that is the line after the one with this text.
    fn after(&self, text: &str) -> usize {
        let at = (file!().to_string(), line_after(SOURCE, text));
        let all = locations(&self.names);
        let index = all.iter().position(|location| *location == at);
        index.unwrap_or_else(|| panic!("{at:?} in {all:?}"))
    }

    /// The number of the actor with this name.
    fn actor(&self, name: &str) -> String {
        let actors = member(&self.names, "actors");
        let (before, _) = actors.split_once(&format!(": \"{name}\"")).unwrap();
        before.rsplit('"').nth(1).unwrap().to_string()
    }
}

/// Plays the part of this test. Returns whether it succeeds, what it writes to standard error, and
/// its folder.
fn played(test: &str) -> (bool, String, Folder) {
    let folder = Folder::new(test);
    let (succeeds, said) = play(test, &folder.0, None);
    (succeeds, said, folder)
}

#[test]
fn the_panics_of_a_test_are_in_its_names() {
    let test = "the_panics_of_a_test_are_in_its_names";
    if is_part() {
        let _recorder = Recorder::for_test("panics");
        let (orders, mut audit) = broadcast::channel(2);
        orders.send(71).unwrap();
        let auditor = thread::Builder::new().name("auditor".into());
        let auditor = auditor.spawn(move || {
            audit.try_recv().unwrap();
            // The auditor panics here.
            panic!("{} is missing", 72);
        });
        // This thread has no part in the test.
        let other = thread::spawn(|| panic!("another test"));
        assert!(other.join().is_err());
        let joined = auditor.unwrap().join();
        orders.send(73).unwrap_err();
        // The test panics here.
        joined.unwrap();
    }
    let (succeeds, _, folder) = played(test);
    assert!(!succeeds);
    let left = Left::read(&folder.0, "panics");
    let wanted = format!(
        r#"[{{"text": "72 is missing", "location": {}, "actor": {}, "who": "auditor", "since": 2}}, "#,
        left.after("// The auditor panics here."),
        left.actor("auditor"),
    );
    let panics = member(&left.names, "panics");
    let (first, last) = panics.split_at(wanted.len());
    assert_eq!(first, wanted);
    // The text of `unwrap` is the standard library's. The drop of the receiver and a send came
    // between.
    assert!(last.starts_with(r#"{"text": "called `Result::unwrap()` on an `Err` value: Any"#));
    let end = format!(
        r#""location": {}, "actor": {}, "who": "{test}", "since": 4}}]"#,
        left.after("// The test panics here."),
        left.actor(test),
    );
    assert!(last.ends_with(&end), "{last}");
    let wanted = format!(
        r#"{{"package": "yovanelum", "target": "ends", "name": "panics", "thread": "{test}"}}"#
    );
    assert_eq!(member(&left.names, "test"), wanted);
    // The second panic unwound the recorder.
    assert_eq!(member(&left.names, "ended_by"), "1");
    // That of the workspace, by which rustc names its sources.
    let root = Path::new(env!("CARGO_MANIFEST_DIR")).parent().unwrap();
    assert_eq!(member(&left.names, "root"), format!("{root:?}"));
    let source = checksum(SOURCE.as_bytes());
    assert_eq!(
        member(&left.names, "sources"),
        format!("{{{:?}: \"{source}\"}}", file!())
    );
}

fn returns_an_error() -> Result<(), broadcast::error::TryRecvError> {
    let recorder = Recorder::for_test("returned");
    let (orders, mut audit) = broadcast::channel::<u32>(2);
    let result = audit.try_recv().map(drop);
    drop(orders);
    // The error is passed on here.
    recorder.save_on_err(result)
}

#[test]
fn an_error_that_a_test_returns_is_in_its_names() {
    if is_part() {
        returns_an_error().unwrap_err();
        return;
    }
    let (succeeds, _, folder) = played("an_error_that_a_test_returns_is_in_its_names");
    assert!(succeeds);
    let left = Left::read(&folder.0, "returned");
    let at = left.after("// The error is passed on here.");
    assert_eq!(
        member(&left.names, "returned"),
        format!(r#"{{"text": "Empty", "location": {at}, "since": 2}}"#)
    );
    assert_eq!(member(&left.names, "panics"), "");
}

/// Panics when it is dropped.
struct Fails;

impl Drop for Fails {
    fn drop(&mut self) {
        panic!("the drop panics too");
    }
}

/// What is said of a run of one send in which a process ends, and what is left of it.
fn ended(test: &str, name: &str) -> (Vec<String>, Left) {
    let (succeeds, said, folder) = played(test);
    assert!(!succeeds);
    let left = Left::read(&folder.0, name);
    assert!(
        left.journal.contains(" send 0 0 = sent 1\n"),
        "{}",
        left.journal
    );
    assert_eq!(member(&left.names, "failed"), "true");
    (our_lines(&said), left)
}

#[test]
fn a_second_panic_leaves_the_files() {
    if is_part() {
        let _recorder = Recorder::for_test("second");
        let (orders, _audit) = broadcast::channel(2);
        let _fails = Fails;
        orders.send(71).unwrap();
        panic!("the test panics");
    }
    let (said, left) = ended("a_second_panic_leaves_the_files", "second");
    assert!(
        said.iter().any(|line| line.starts_with("look: ")),
        "{said:#?}"
    );
    assert!(
        said.iter().any(|line| line.starts_with("replay: ")),
        "{said:#?}"
    );
    let panics = member(&left.names, "panics");
    let texts = ["the test panics", "the drop panics too"];
    assert_eq!(panics.matches("\"text\"").count(), 2, "{panics}");
    assert!(texts.iter().all(|text| panics.contains(text)), "{panics}");
}

extern "C" fn called_from_c() {
    panic!("no unwinding");
}

#[test]
fn a_panic_that_cannot_unwind_leaves_the_files() {
    if is_part() {
        let _recorder = Recorder::for_test("no_unwinding");
        let (orders, _audit) = broadcast::channel(2);
        orders.send(71).unwrap();
        called_from_c();
    }
    let test = "a_panic_that_cannot_unwind_leaves_the_files";
    let (_, left) = ended(test, "no_unwinding");
    let panics = member(&left.names, "panics");
    assert!(
        panics.starts_with(r#"[{"text": "no unwinding", "#),
        "{panics}"
    );
    assert_eq!(panics.matches("\"text\"").count(), 1, "{panics}");
}

#[test]
fn a_panic_that_is_caught_leaves_nothing() {
    if is_part() {
        let _recorder = Recorder::for_test("caught");
        let (state, _rx) = watch::channel(1);
        for _ in 0..100 {
            let modify = || state.send_modify(|_| panic!("it is caught"));
            assert!(catch_unwind(AssertUnwindSafe(modify)).is_err());
        }
        // A second one, while the first unwinds.
        let fails = || {
            let _fails = catch_unwind(|| drop(Fails));
            panic!("it is caught too");
        };
        assert!(catch_unwind(AssertUnwindSafe(fails)).is_err());
        return;
    }
    let (succeeds, said, folder) = played("a_panic_that_is_caught_leaves_nothing");
    assert!(succeeds && our_lines(&said).is_empty(), "{said}");
    assert!(!files(&folder.0).exists());
}

#[test]
fn the_hook_from_before_is_called_and_the_one_after_is_kept() {
    if is_part() {
        std::panic::set_hook(Box::new(|_| eprintln!("the hook from before")));
        let _recorder = Recorder::for_test("hooked");
        let _channel = broadcast::channel::<u8>(2);
        panic!("the test panics");
    }
    let test = "the_hook_from_before_is_called_and_the_one_after_is_kept";
    let (succeeds, said, folder) = played(test);
    assert!(!succeeds);
    assert_eq!(said.matches("the hook from before\n").count(), 1, "{said}");
    let left = Left::read(&folder.0, "hooked");
    assert!(member(&left.names, "panics").contains("the test panics"));
}

#[test]
fn what_was_not_recorded_is_in_the_names() {
    if is_part() {
        let _recorder = Recorder::for_test("limits");
        let many = broadcast::channel::<u8>(2);
        let mut channels: Vec<_> = (0..63).map(|_| broadcast::channel::<u8>(2)).collect();
        // Two are left out, and one leaves for another.
        channels.extend((0..2).map(|_| broadcast::channel(2)));
        channels.swap_remove(0);
        channels.push(broadcast::channel(2));
        (0..65_536).for_each(|_| drop(many.0.subscribe()));
        panic!("the test fails");
    }
    let (succeeds, _, folder) = played("what_was_not_recorded_is_in_the_names");
    assert!(!succeeds);
    let left = Left::read(&folder.0, "limits");
    assert_eq!(
        member(&left.names, "unrecorded"),
        r#"{"channels": 2, "left": 1, "calls": false, "handles": 1, "locked": 0}"#
    );
}

#[test]
fn past_the_limit_the_last_calls_are_kept_and_a_panic_is_behind_them() {
    if is_part() {
        let _recorder = Recorder::for_test("past the limit");
        let (state, _rx) = watch::channel(0);
        let (orders, _audit) = broadcast::channel(1);
        state.send(1).unwrap();
        (0..1_048_577).for_each(|id| drop(orders.send(id)));
        panic!("the test fails");
    }
    let (succeeds, said, folder) =
        played("past_the_limit_the_last_calls_are_kept_and_a_panic_is_behind_them");
    assert!(!succeeds && !said.contains("replay: "), "{said}");
    let left = Left::read(&folder.0, "past the limit");
    assert_eq!(member(&left.names, "unrecorded"), "");
    assert!(member(&left.names, "window").starts_with("{\"trigger\": \"limit\", "));
    let mut lines = left.journal.lines();
    let last = lines.find(|line| line.ends_with(" send 0 1048576 = sent 1"));
    let stamp = last.unwrap().split(' ').next().unwrap();
    let since = format!("\"since\": {stamp}}}");
    assert!(member(&left.names, "panics").contains(&since), "{since}");
}

#[test]
fn that_recording_ended_is_in_the_names() {
    let recorder = Recorder::new();
    let _entered = recorder.enter();
    let (orders, _audit) = broadcast::channel(1);
    (0..1_048_577).for_each(|id| drop(orders.send(id)));
    let names = recorder.names();
    assert_eq!(
        member(&names, "unrecorded"),
        r#"{"channels": 0, "left": 0, "calls": true, "handles": 0, "locked": 0}"#
    );
}
