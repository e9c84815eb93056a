//! The bus of the examples runs for some seconds, and the dump of its lag says who lagged.

#[path = "../../examples/bus.rs"]
mod bus;

use std::path::Path;
use std::time::Duration;
use std::{env, fs, process};
use yovanelum::debugger::Walk;

/// How many runs there are at most.
const RUNS: u32 = 6;

/// Runs the bus for some seconds, and returns its dump where that is one of a lag of the audit.
///
/// # Errors
///
/// Returns an error that says what else it was. On a machine that is busy, so few lines may come
/// that the audit isn't behind by 3,000, or the task of a client may be late, and lag by as many
/// before the audit does. Its lag has the dump then.
async fn dump_of_audit(seconds: u64, folder: &Path) -> Result<String, String> {
    let _ = fs::remove_dir_all(folder);
    let served = bus::run(Duration::from_secs(seconds), folder).await;
    let served = served.unwrap();
    let dumps = (served.dumps.written(), served.dumps.failed());
    if served.lost < 3_000 || served.lines <= served.lost || dumps != (1, 0) {
        return Err(format!("{served:?}"));
    }
    let journal = bus::journals(folder).unwrap().pop().unwrap();
    let text = fs::read_to_string(&journal).unwrap();
    let walk = Walk::open(text.as_bytes()).unwrap();
    let lagged = (1..=walk.len()).rev().find_map(|place| {
        let entry = walk.entry(place)?;
        entry
            .returned()
            .filter(|lost| entry.reply() == "lagged" && *lost >= 3_000)
    });
    let names = fs::read_to_string(journal.with_extension("names")).unwrap();
    let reason = format!(
        "\"reason\": \"`audit` lost {} values of `bus`\"",
        lagged.unwrap()
    );
    if names.contains(&reason) {
        Ok(names)
    } else {
        Err(format!("no {reason} in {names}"))
    }
}

#[tokio::test(flavor = "multi_thread")]
async fn the_dump_of_a_lag_names_receiver_send_and_places() {
    let folder = env::temp_dir().join(format!("bus-{}", process::id()));
    let mut dump = dump_of_audit(3, &folder).await;
    // The others have more time, and the first one that is right is judged.
    for run in 1..RUNS {
        if dump.is_err() {
            dump = dump_of_audit(3 << run, &folder).await;
        }
    }
    let names = dump.unwrap();
    assert!(names.contains("examples/bus.rs") && names.contains("\"client 1\""));
    assert!(names.contains("\"times\": [["));
    fs::remove_dir_all(folder).unwrap();
}
