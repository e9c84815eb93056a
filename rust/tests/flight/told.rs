//! What the program `yovanelum` says of a dump.

use super::support::durations::Measured;
use super::support::parts::between;
use super::support::temporary;
use super::windows::{callers, windows};
use std::fs;
use std::path::Path;
use std::process::Command;
use std::thread;
use std::time::{Duration, Instant};
use yovanelum::broadcast::error::TryRecvError;
use yovanelum::{Recorder, block_on, broadcast, named};

/// Returns what `yovanelum why` prints of a journal.
pub fn why(journal: &Path, more: &[&str]) -> String {
    let command = Command::new(env!("CARGO_BIN_EXE_yovanelum"))
        .arg("why")
        .arg(journal)
        .args(more)
        .env_remove("GITHUB_ACTIONS")
        .output()
        .unwrap();
    assert!(command.status.success(), "{command:?}");
    assert_eq!(String::from_utf8_lossy(&command.stderr), "");
    String::from_utf8(command.stdout).unwrap()
}

#[test]
#[cfg_attr(target_family = "wasm", ignore = "WebAssembly has no threads")]
fn a_lag_of_the_night_is_told_with_what_is_known() {
    let folder = temporary::fresh("flight-told");
    let recorder = Recorder::flight(10);
    let _entered = recorder.enter();
    recorder.dump_to(&folder);
    let (prices, first) = broadcast::channel(16);
    recorder.name(&prices, "prices");
    // 50 connections that are gone: the next receiver is the channel's handle 52.
    for _ in 0..50 {
        drop(prices.subscribe());
    }
    let mut audit = prices.subscribe();
    let created = format!("{}:{}", file!(), line!() - 1);
    drop(first);
    for value in 0..100_000 {
        prices.send(value).unwrap();
        if value < 99_900 {
            audit.try_recv().unwrap();
        }
    }
    assert_eq!(audit.try_recv(), Err(TryRecvError::Lagged(84)));
    let journal = recorder.dump("asked for").wait().unwrap();
    let names = fs::read_to_string(journal.with_extension("names")).unwrap();
    let window = &windows(&names)[0];
    // 51 subscriptions and drops, the sends, and the receives of `audit` came until then.
    let calls = 2 * 51 + 100_000 + 99_900 + 1;
    let (lead, length) = (window.lead, window.lead + calls - window.calls);
    let overwritten = window.sent.unwrap() - 16 - 99_900;
    let said = why(&journal, &[]);
    let lines: Vec<_> = said.lines().collect();
    let asked = format!(
        " UTC: asked for; calls {} to {length}; 1 to {lead} lead to the window",
        lead + 1
    );
    assert!(lines[0].starts_with("yovanelum: dump of 20"), "{said}");
    assert!(lines[0].ends_with(&asked), "{said}");
    let before = window.calls;
    let unknown = format!("yovanelum: not all is known: {before} calls came before the window");
    assert_eq!(lines[1], unknown);
    // The clock of a flight recorder begins at 64 times 1,048,576, and one channel has all calls.
    let stamps = [window.calls + 1, calls].map(|call| 64 * 1_048_576 + call);
    let in_snapshots = format!(
        "yovanelum: calls {} to {length} are {} to {} in snapshots",
        lead + 1,
        stamps[0],
        stamps[1]
    );
    assert_eq!(lines[2], in_snapshots);
    let head = format!(
        "error: receiver 52 (created at {created}) lost 84 of at most 100000 values of `prices` (capacity 16)"
    );
    assert_eq!(lines[3], head);
    assert_eq!(lines[5], "  before the window   the overwriting began");
    let told = format!("  call {length}");
    assert!(lines[6].starts_with(&told), "{said}");
    assert!(lines[6].contains("   told: lagged 84 "), "{said}");
    assert!(
        lines[6].contains("its last receive: none in the window; at "),
        "{said}"
    );
    let lost = format!("  lost: {overwritten} values, overwritten before the window; its 999");
    assert!(lines[7].starts_with(&lost), "{said}");
    let json = why(&journal, &["--json"]);
    assert!(
        json.contains("\n  \"window\": {\"trigger\": \"call\", \"reason\": \"asked for\", "),
        "{json}"
    );
    assert!(
        json.contains(
            "\"lost\": 84, \"of\": 100000, \"losses\": 1, \"end\": \"told\", \"at_most\": true, "
        ),
        "{json}"
    );
}

/// The first call of a channel, whose time a flight recorder keeps. So the times of the calls
/// beside it are known as well.
fn note_time() -> (broadcast::Sender<()>, broadcast::Receiver<()>) {
    let (now, then) = broadcast::channel(1);
    now.send(()).unwrap();
    (now, then)
}

#[test]
#[cfg_attr(target_family = "wasm", ignore = "WebAssembly has no threads")]
fn a_loss_is_told_with_how_long_before_it_the_last_receive_was() {
    let folder = temporary::fresh("flight-idle");
    let recorder = Recorder::flight(100);
    let _entered = recorder.enter();
    recorder.dump_to(&folder);
    let (prices, mut audit) = broadcast::channel(1);
    recorder.name(&prices, "prices").name(&audit, "audit");
    let before = Instant::now();
    prices.send(101).unwrap();
    assert_eq!(audit.try_recv(), Ok(101));
    let _noted = note_time();
    let received = Instant::now();
    // It is this time that is told.
    thread::sleep(Duration::from_millis(30));
    let sending = Instant::now();
    let _noted = note_time();
    prices.send(102).unwrap();
    prices.send(103).unwrap();
    assert_eq!(audit.try_recv(), Err(TryRecvError::Lagged(1)));
    let measured = Measured::between([before, received, sending, Instant::now()]);
    let journal = recorder.dump("asked for").wait().unwrap();
    let said = why(&journal, &[]);
    let told = between(&said, "told: lagged 1 ", "\n");
    let idle = between(told, "its 1st value, ", " before the loss");
    assert!(measured.is_said(idle), "{measured:?}: {said}");
    let json = why(&journal, &["--json"]);
    let idle = between(&json, "\"idle\": ", ", ").parse().unwrap();
    assert!(measured.is(idle), "{measured:?}: {json}");
    fs::remove_dir_all(&folder).unwrap();
}

#[test]
#[cfg_attr(target_family = "wasm", ignore = "WebAssembly has no threads")]
fn who_overwrote_is_named_though_there_were_many_tasks() {
    let folder = temporary::fresh("flight-many-tasks");
    let recorder = Recorder::flight(1_000);
    let _entered = recorder.enter();
    recorder.dump_to(&folder);
    let (prices, _first) = broadcast::channel(16);
    recorder.name(&prices, "prices");
    let send = |price: u32| {
        let sends = named(&format!("conn {price}"), async { prices.send(price) });
        assert!(block_on(sends).is_ok());
    };
    (0..100).for_each(send);
    let mut audit = prices.subscribe();
    recorder.name(&audit, "audit");
    (100..200).for_each(send);
    // It has lost 100 to 183. The first of them was overwritten by the send of 116.
    assert_eq!(audit.try_recv(), Err(TryRecvError::Lagged(84)));
    let journal = recorder.dump("asked for").wait().unwrap();
    let said = why(&journal, &[]);
    let line = said
        .lines()
        .find(|line| line.contains(" overwrote its "))
        .unwrap();
    assert!(line.contains(" conn 116 "), "{said}");
    // A number that no caller can have is none.
    let path = journal.with_extension("names");
    let names = fs::read_to_string(&path).unwrap();
    let own = format!("\"117\": {}", callers(&names, 0)[&117]);
    fs::write(&path, names.replace(&own, "\"117\": 4000000000")).unwrap();
    let said = why(&journal, &[]);
    let line = said
        .lines()
        .find(|line| line.contains(" overwrote its "))
        .unwrap();
    assert!(line.contains(" others "), "{said}");
    fs::remove_dir_all(&folder).unwrap();
}
