//! How many calls a flight recorder keeps where a channel retains many values or has many handles,
//! which are copied with each chunk of its calls.

use super::support::temporary;
use super::told::why;
use super::windows::windows;
use std::fs;
use std::path::Path;
use yovanelum::debugger::Walk;
use yovanelum::{Recorder, broadcast};

/// How many calls the service asks for.
const ASKED: u64 = 100;

/// Sends and receives, and returns the least and the greatest number of calls that were kept
/// meanwhile.
fn kept(
    recorder: &Recorder,
    (prices, chart): &mut (broadcast::Sender<u64>, broadcast::Receiver<u64>),
    pairs: u64,
) -> (u64, u64) {
    let (mut least, mut most) = (u64::MAX, 0);
    for price in 0..pairs {
        prices.send(price).unwrap();
        chart.try_recv().unwrap();
        least = least.min(recorder.len());
        most = most.max(recorder.len());
    }
    (least, most)
}

/// Writes a dump, and says how many calls it has after its lead. The proved reader accepts it, and
/// `yovanelum why` knows what came before.
fn calls_of_dump(recorder: &Recorder, folder: &Path, made: u64) -> u64 {
    let journal = recorder.dump("asked for").wait().unwrap();
    let names = fs::read_to_string(journal.with_extension("names")).unwrap();
    let text = fs::read(&journal).unwrap();
    let walk = Walk::open(&text[..]).unwrap();
    let window = &windows(&names)[0];
    let calls = walk.len() - window.lead;
    assert_eq!(window.calls + calls, made);
    let before = format!("{} calls came before the window", window.calls);
    let said = why(&journal, &[]);
    assert!(said.contains(&before), "{said}");
    fs::remove_dir_all(folder).unwrap();
    calls
}

/// Returns a recorder of the last calls that writes into a folder of this name.
fn recorder(name: &str) -> (Recorder, std::path::PathBuf) {
    let folder = temporary::fresh(name);
    let recorder = Recorder::flight(ASKED as usize);
    recorder.dump_to(&folder);
    (recorder, folder)
}

#[test]
fn a_capacity_that_is_not_used_keeps_no_more_calls() {
    let recorder = Recorder::flight(ASKED as usize);
    let _entered = recorder.enter();
    let mut channel = broadcast::channel(65_536);
    kept(&recorder, &mut channel, ASKED);
    let (least, most) = kept(&recorder, &mut channel, ASKED);
    assert!(least >= ASKED && most <= 2 * ASKED, "{least} {most}");
}

#[test]
fn over_a_backlog_a_dump_has_the_documented_number_of_calls() {
    let (recorder, folder) = recorder("flight-backlog");
    let _entered = recorder.enter();
    let mut channel = broadcast::channel(65_536);
    for price in 0..60_000 {
        channel.0.send(price).unwrap();
    }
    // At most as many calls as values, and two for each handle.
    let documented = 65_536 + 2 * 2;
    let (least, most) = kept(&recorder, &mut channel, 80_000);
    assert!(least >= ASKED && most <= documented, "{least} {most}");
    let calls = calls_of_dump(&recorder, &folder, 60_000 + 2 * 80_000);
    assert!((least..=most).contains(&calls), "{calls}");
}

#[test]
fn a_channel_keeps_more_calls_while_it_has_many_handles() {
    let (recorder, folder) = recorder("flight-receivers");
    let _entered = recorder.enter();
    let mut channel = broadcast::channel(16);
    let others: Vec<_> = (0..5_000).map(|_| channel.0.subscribe()).collect();
    kept(&recorder, &mut channel, 10_000);
    let (least, most) = kept(&recorder, &mut channel, 10_000);
    // A chunk of fewer would copy more than two handles for a call.
    assert!(least >= 5_000 / 2, "{least}");
    assert!(most <= 16 + 2 * 5_002, "{most}");
    drop(others);
    kept(&recorder, &mut channel, 10_000);
    let (least, most) = kept(&recorder, &mut channel, 10_000);
    assert!(least >= ASKED && most <= 2 * ASKED, "{least} {most}");
    let calls = calls_of_dump(&recorder, &folder, 2 * 5_000 + 4 * 2 * 10_000);
    assert!((ASKED..=2 * ASKED).contains(&calls), "{calls}");
}
