//! The programs of the guide, word for word: what the failing test of its first page prints, with
//! the walk over its journal, and what its service prints.

mod support;

use std::path::Path;
use std::{fs, thread};
use support::debugged;
use support::parts::{
    Folder, between, files, is_part, line_after, lines_of_failure, play, relocated, started,
};

const START_PAGE: &str = include_str!("../src/guide/start.md");
const NAME: &str = "no_price_is_missing";

const TEST: &str = "the_program_prints_what_the_guide_has_of_it";

/// How often the program may be run until its auditor is as late as in the guide. It sleeps, but
/// another thread may be even slower, and then it may miss nothing.
const TRIES: usize = 100;

#[rustfmt::skip]
fn program() {
    // The program of the guide.
    use std::thread;
    use std::time::Duration;
    use yovanelum::{Recorder, broadcast};

    let recorder = Recorder::for_test("no_price_is_missing");
    let (bus, mut audit) = broadcast::channel(2);
    recorder.name(&bus, "prices").show(&bus, |price| format!("{price} EUR"));
    let ticker = thread::Builder::new().name("ticker".into()).spawn(move || {
        for price in 101..=105 {
            bus.send(price).unwrap();
        }
    });
    let auditor = thread::Builder::new().name("auditor".into()).spawn(move || {
        thread::sleep(Duration::from_millis(20)); // opens its file
        let mut missing = 0;
        loop {
            match audit.blocking_recv() {
                Ok(_price) => {}
                Err(broadcast::error::RecvError::Lagged(n)) => missing += n,
                Err(broadcast::error::RecvError::Closed) => return missing,
            }
        }
    });
    ticker.unwrap().join().unwrap();
    assert_eq!(auditor.unwrap().join().unwrap(), 0);
    // Its end.
}

const START: &str = "    // The program of the guide.\n";

/// Returns the lines of the program above.
fn source() -> String {
    let lines = between(include_str!("guide.rs"), START, "    // Its end.\n");
    let lines = lines
        .lines()
        .map(|line| line.strip_prefix("    ").unwrap_or(line));
    lines.map(|line| format!("{line}\n")).collect()
}

/// Returns the lines that the guide shows of the program's output, with this folder as that of its
/// journal.
fn said_in_the_guide(folder: &Path) -> String {
    let told = between(START_PAGE, "```text\nassertion", "```");
    let files = files(folder).display().to_string();
    // A report has 40 characters of a longer name.
    let shown = format!("{}…", &TEST[..40]);
    let told = format!("assertion{told}")
        .replace("/bus/target/yovanelum/bus/test-bus", &files)
        .replace("-p bus --test bus", "-p yovanelum --test guide")
        .replace(&format!("-- {NAME} "), &format!("-- {TEST} "))
        .replace(&format!("failed: {NAME} "), &format!("failed: {shown} "));
    // There the program begins at line 6.
    let here = line_after(include_str!("guide.rs"), START.trim_end());
    relocated(&told, ("tests/bus.rs", 6), ("rust/tests/guide.rs", here))
}

/// Runs the program, and returns the lines of its failure on standard error, if it fails.
fn said(folder: &Path) -> Option<String> {
    let (succeeds, said) = play(TEST, folder, None);
    (!succeeds).then(|| lines_of_failure(&said))
}

#[test]
fn the_program_is_that_of_the_guide() {
    assert_eq!(
        source(),
        between(START_PAGE, "```rust,should_panic\n", "```")
    );
}

#[test]
#[cfg_attr(target_family = "wasm", ignore = "WebAssembly has no processes")]
#[cfg_attr(windows, ignore = "the text has paths of Unix")]
fn the_program_prints_what_the_guide_has_of_it() {
    if is_part() {
        return program();
    }
    // Each try has a new folder, since a report also tells of runs before.
    let mut folders = (0..TRIES).map(|_| Folder::new("guide"));
    let mut last = None;
    let found = folders.find(|folder| {
        last = said(&folder.0);
        last == Some(said_in_the_guide(&folder.0))
    });
    let folder = found.unwrap_or_else(|| panic!("said at last: {last:?}"));
    let walk = between(START_PAGE, "```text\n$ printf '", "```");
    let (commands, written) = walk.split_once('\n').unwrap();
    let commands = commands.split_once('\'').unwrap().0.replace("\\n", "\n");
    let journal = files(&folder.0).join(format!("{NAME}.journal"));
    if let Some(debugged) = debugged(&journal, &commands) {
        assert_eq!(debugged, written);
    }
    let names = fs::read_to_string(journal.with_extension("names")).unwrap();
    for text in ["\"ticker\"", "\"auditor\"", "\"prices\"", "\"101 EUR\""] {
        assert!(names.contains(text), "{names}");
    }
}

const SERVICE_PAGE: &str = include_str!("../src/guide/service.md");

#[rustfmt::skip]
fn service() {
    // The program of the page on services.
    use yovanelum::{Recorder, broadcast};

    yovanelum::on_lag(|lag| eprintln!("warning: {lag}"));

    let (prices, mut chart) = broadcast::channel(2);
    Recorder::off().name(&prices, "prices").name(&chart, "chart");
    for price in [101, 102, 103] {
        prices.send(price).unwrap();
    }
    assert!(chart.try_recv().is_err());
    print!("{}", yovanelum::snapshot());
    // Its end there.
}

const SERVICE_START: &str = "    // The program of the page on services.\n";

#[test]
fn the_service_is_that_of_the_guide() {
    let lines = between(
        include_str!("guide.rs"),
        SERVICE_START,
        "    // Its end there.\n",
    );
    let lines = lines
        .lines()
        .map(|line| line.strip_prefix("    ").unwrap_or(line));
    let source: String = lines.map(|line| format!("{line}\n")).collect();
    assert_eq!(source, between(SERVICE_PAGE, "```rust\n", "```"));
}

/// Returns the words of these lines. Columns are as wide as the path of a source.
fn words(lines: &str) -> Vec<&str> {
    lines.split_whitespace().collect()
}

#[test]
#[cfg_attr(target_family = "wasm", ignore = "WebAssembly has no processes")]
#[cfg_attr(windows, ignore = "the text has paths of Unix")]
fn the_service_prints_what_the_guide_has_of_it() {
    if is_part() {
        // A program's first thread has this name.
        let main = thread::Builder::new().name("main".into()).spawn(service);
        return main.unwrap().join().unwrap();
    }
    let folder = Folder::new("guide-service");
    let test = "the_service_prints_what_the_guide_has_of_it";
    let ran = started(test, &folder.0)
        .arg("--nocapture")
        .output()
        .unwrap();
    let (told, said) = (String::from_utf8(ran.stderr), String::from_utf8(ran.stdout));
    let (told, said) = (told.unwrap(), said.unwrap());
    // There the program begins at line 1.
    let here = line_after(include_str!("guide.rs"), SERVICE_START.trim_end());
    let shown = between(SERVICE_PAGE, "```text\n", "```");
    let wanted = relocated(shown, ("src/main.rs", 1), ("rust/tests/guide.rs", here));
    let (warning, table) = wanted.split_once('\n').unwrap();
    assert_eq!(told.trim_end(), warning);
    let printed = said.find("prices: ").map_or("", |at| &said[at..]);
    assert!(words(printed).starts_with(&words(table)), "{said}");
}
