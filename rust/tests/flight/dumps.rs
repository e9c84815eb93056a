//! What calls for a dump, and what is written.

use super::support::named::member;
use super::support::temporary;
use super::windows::{lead, times, trigger, windows};
use std::collections::BTreeSet;
use std::path::Path;
use std::time::Duration;
use std::{fs, panic, thread};
use yovanelum::debugger::Walk;
use yovanelum::{Recorder, broadcast, watch};

/// Waits until `dumps` dumps were written or have failed.
fn wait_for(recorder: &Recorder, dumps: u64) {
    while recorder.dumps().written() + recorder.dumps().failed() < dumps {
        thread::yield_now();
    }
}

/// Returns the journals of a folder in order, each with its names.
fn dumps_in(folder: &Path) -> Vec<(String, String)> {
    let files = fs::read_dir(folder)
        .unwrap()
        .map(|file| file.unwrap().path());
    let mut journals: Vec<_> = files
        .filter(|path| path.extension().is_some_and(|it| it == "journal"))
        .collect();
    // Of one millisecond, the tenth of a process is behind its ninth.
    journals.sort_by_key(|path| {
        let name = path.file_stem().unwrap().to_string_lossy();
        let (name, _trigger) = name.rsplit_once('-').unwrap();
        let (begun, number) = name.rsplit_once('-').unwrap();
        (begun.to_string(), number.parse::<u64>().unwrap())
    });
    let read = |path: &Path| fs::read_to_string(path).unwrap();
    journals
        .iter()
        .map(|path| (read(path), read(&path.with_extension("names"))))
        .collect()
}

/// Sends until the receiver has lost `lost` values, and asks it.
fn lag(tx: &broadcast::Sender<u64>, rx: &mut broadcast::Receiver<u64>, lost: u64) {
    while rx.try_recv().is_ok() {}
    for value in 0..lost + 4 {
        tx.send(value).unwrap();
    }
    assert_eq!(
        rx.try_recv(),
        Err(broadcast::error::TryRecvError::Lagged(lost))
    );
}

#[test]
fn a_lag_calls_for_a_dump_if_it_is_great_enough() {
    let folder = temporary::fresh("flight-lag");
    let recorder = Recorder::flight(10);
    recorder
        .dump_to(&folder)
        .when_lag(50)
        .at_most_every(Duration::ZERO);
    let _entered = recorder.enter();
    let (prices, mut chart) = broadcast::channel(4);
    recorder.name(&prices, "prices").name(&chart, "chart");
    lag(&prices, &mut chart, 49);
    assert_eq!(recorder.dumps(), Default::default());
    lag(&prices, &mut chart, 50);
    wait_for(&recorder, 1);
    let (journal, names) = dumps_in(&folder).pop().unwrap();
    let walk = Walk::open(journal.as_bytes()).unwrap();
    let last = walk.entry(walk.len()).unwrap();
    assert_eq!((last.reply(), last.returned()), ("lagged", Some(50)));
    assert_eq!(trigger(&names), "lag");
    assert!(
        member(&names, "window").contains("\"reason\": \"`chart` lost 50 values of `prices`\"")
    );
    // The time of the lag, and that of the dump.
    let times = times(&names);
    let stamps: Vec<_> = times.iter().map(|time| time[0]).collect();
    assert_eq!(
        stamps
            .iter()
            .filter(|stamp| **stamp == last.stamp())
            .count(),
        2,
        "{stamps:?}"
    );
    fs::remove_dir_all(folder).unwrap();
}

#[test]
fn the_close_of_a_channel_with_that_name_calls_for_a_dump() {
    let folder = temporary::fresh("flight-close");
    let recorder = Recorder::flight(10);
    recorder.dump_to(&folder).when_closed("config");
    let _entered = recorder.enter();
    let (config, _server) = watch::channel(0);
    let (other, _rx) = watch::channel(0);
    let (second, _client) = watch::channel(0);
    recorder.name(&config, "config").name(&other, "other");
    recorder.name(&second, "config");
    drop(other);
    assert_eq!(recorder.dumps(), Default::default());
    config.send(1).unwrap();
    drop(config);
    wait_for(&recorder, 1);
    let (journal, names) = dumps_in(&folder).pop().unwrap();
    assert_eq!(trigger(&names), "close");
    assert!(journal.ends_with(" drop 0 = dropped\nend\n"));
    // Another one would be too near.
    drop(second);
    assert_eq!(recorder.dumps().left_out(), 1);
    fs::remove_dir_all(folder).unwrap();
}

#[test]
fn the_close_of_each_of_several_names_calls_for_a_dump_and_one_is_kept_at_least() {
    let folder = temporary::fresh("flight-closes");
    let recorder = Recorder::flight(10);
    let dumps = recorder.dump_to(&folder).at_most_every(Duration::ZERO);
    dumps.keep(0).when_closed("config").when_closed("level");
    let _entered = recorder.enter();
    let (config, _server) = watch::channel(0);
    let (level, _gauge) = watch::channel(0);
    recorder.name(&config, "config").name(&level, "level");
    drop(config);
    assert!(has_dump_of(&recorder, &folder, 1, "config"));
    drop(level);
    assert!(has_dump_of(&recorder, &folder, 2, "level"));
    fs::remove_dir_all(folder).unwrap();
}

/// Waits until this many dumps were written, and returns whether the only one that is kept was
/// begun by the close of this channel.
fn has_dump_of(recorder: &Recorder, folder: &Path, count: u64, channel: &str) -> bool {
    wait_for(recorder, count);
    let dumps = dumps_in(folder);
    let [(_, names)] = &dumps[..] else {
        return false;
    };
    member(names, "window").contains(&format!("`{channel}`"))
}

#[test]
fn dumps_are_not_too_near_and_not_too_many() {
    let folder = temporary::fresh("flight-many");
    let recorder = Recorder::flight(10);
    recorder.dump_to(&folder).when_lag(1).keep(2);
    let _entered = recorder.enter();
    let (prices, mut chart) = broadcast::channel(4);
    lag(&prices, &mut chart, 1);
    wait_for(&recorder, 1);
    (0..3).for_each(|_| lag(&prices, &mut chart, 1));
    let dumps = recorder.dumps();
    assert_eq!(
        (dumps.written(), dumps.failed(), dumps.left_out()),
        (1, 0, 3)
    );
    // Those that are asked for are not limited.
    for number in 0..3 {
        let path = recorder.dump(&format!("try {number}")).wait().unwrap();
        assert!(path.starts_with(&folder) && path.with_extension("names").exists());
    }
    let reasons: Vec<_> = dumps_in(&folder)
        .into_iter()
        .map(|(_, names)| names)
        .collect();
    // They leave that of the lag, of which there are as many.
    assert_eq!(reasons.len(), 3);
    assert!(reasons[0].contains("\"lag\""));
    assert!(reasons[1].contains("\"try 1\"") && reasons[2].contains("\"try 2\""));
    fs::remove_dir_all(folder).unwrap();
}

#[test]
fn dumps_that_are_asked_for_at_once_are_all_written_with_the_calls_until_then() {
    let folder = temporary::fresh("flight-at-once");
    let recorder = Recorder::flight(100);
    recorder.dump_to(&folder);
    let _entered = recorder.enter();
    let (prices, _chart) = broadcast::channel(4);
    let dumps: Vec<_> = (0..8)
        .map(|price| {
            prices.send(price).unwrap();
            recorder.dump(&format!("try {price}"))
        })
        .collect();
    for (price, dump) in (0..).zip(dumps) {
        let path = dump.wait().unwrap();
        let journal = fs::read_to_string(&path).unwrap();
        assert!(journal.ends_with(&format!(" send 0 {price} = sent 1\nend\n")));
        let names = fs::read_to_string(path.with_extension("names")).unwrap();
        assert!(names.contains(&format!("\"try {price}\"")));
    }
    assert_eq!(
        (recorder.dumps().written(), recorder.dumps().left_out()),
        (8, 0)
    );
    fs::remove_dir_all(folder).unwrap();
}

#[test]
fn new_dumps_stay_where_the_clock_was_set_back() {
    let folder = temporary::fresh("flight-clock");
    fs::create_dir_all(&folder).unwrap();
    for number in 1..4 {
        for ending in ["journal", "names"] {
            let file = format!("flight-20990101T000000000Z-7-{number}.{ending}");
            fs::write(folder.join(file), "").unwrap();
        }
    }
    let recorder = Recorder::flight(10);
    recorder.dump_to(&folder).keep(2);
    let _entered = recorder.enter();
    let _channel = broadcast::channel::<u64>(4);
    let paths = ["one", "two", "three"].map(|reason| recorder.dump(reason).wait().unwrap());
    let left = fs::read_dir(&folder)
        .unwrap()
        .map(|file| file.unwrap().path());
    let left: BTreeSet<_> = left
        .filter(|path| path.extension().is_some_and(|it| it == "journal"))
        .collect();
    assert_eq!(left, paths[1..].iter().cloned().collect());
    fs::remove_dir_all(folder).unwrap();
}

#[test]
fn a_dump_that_cannot_be_written_is_counted_and_the_service_goes_on() {
    let folder = temporary::fresh("flight-no-folder");
    fs::write(&folder, "a file is in its place").unwrap();
    let recorder = Recorder::flight(10);
    recorder.dump_to(&folder).when_lag(1);
    let _entered = recorder.enter();
    let (prices, mut chart) = broadcast::channel(4);
    lag(&prices, &mut chart, 1);
    wait_for(&recorder, 1);
    assert_eq!((recorder.dumps().failed(), chart.try_recv()), (1, Ok(1)));
    let error = recorder.dump("asked for").wait().unwrap_err().to_string();
    let wanted = format!("{}: ", folder.display());
    assert!(error.starts_with(&wanted), "{error}");
    fs::remove_file(folder).unwrap();
}

#[test]
fn a_recorder_without_channels_has_no_dump() {
    let recorder = Recorder::flight(10);
    recorder.dump_to(temporary::fresh("flight-nothing"));
    let error = recorder.dump("a try").wait().unwrap_err();
    assert_eq!(error.to_string(), "no channel is recorded");
}

#[test]
#[should_panic(expected = "this recorder is no flight recorder")]
fn other_recorders_have_no_dumps() {
    Recorder::new().dump_to("dumps");
}

#[test]
fn a_receiver_that_lags_far_and_is_not_asked_has_its_real_lag_in_the_names() {
    let recorder = Recorder::flight(100);
    let _entered = recorder.enter();
    let (prices, mut chart) = broadcast::channel(4);
    let audit = prices.subscribe();
    recorder.name(&audit, "audit");
    for price in 0..1_000_000 {
        prices.send(price).unwrap();
        assert_eq!(chart.try_recv(), Ok(price));
    }
    let names = recorder.names();
    let window = &windows(&names)[0];
    assert!(lead(&names) < 20);
    let (receiver, lag) = window.lags.iter().next().unwrap();
    assert_eq!(window.handles[*receiver as usize], Some(2));
    assert_eq!(*lag, window.sent.unwrap() - 4);
    // If it is asked, the window begins behind that call, since the lead would be too long.
    let mut audit = audit;
    assert!(audit.try_recv().is_err());
    prices.send(7).unwrap();
    let journal = recorder.journal().unwrap();
    let calls = journal
        .lines()
        .filter(|line| line.contains(" = ") && !line.contains(" 63 0 "));
    assert_eq!(calls.count(), 1);
}

#[test]
fn the_busiest_channels_have_fewer_calls_in_a_dump_of_many() {
    let folder = temporary::fresh("flight-share");
    let recorder = Recorder::flight(100_000);
    recorder.dump_to(&folder);
    let _entered = recorder.enter();
    let quiet = broadcast::channel(4);
    let busy: Vec<_> = (0..12).map(|_| broadcast::channel(4)).collect();
    quiet.0.send(0).unwrap();
    for value in 0..100_000 {
        for (tx, _) in &busy {
            tx.send(value).unwrap();
        }
    }
    let path = recorder.dump("asked for").wait().unwrap();
    let journal = fs::read_to_string(path).unwrap();
    let entries = journal.lines().filter(|line| line.contains(" = ")).count();
    assert!((900_000..=1_000_000).contains(&entries), "{entries}");
    Walk::open(journal.as_bytes()).unwrap();
    fs::remove_dir_all(folder).unwrap();
}

#[test]
fn a_panic_in_the_closure_of_a_lag_goes_on_and_the_dump_is_written() {
    let folder = temporary::fresh("flight-closure");
    let recorder = Recorder::flight(10);
    recorder.dump_to(&folder).when_lag(1);
    recorder.on_lag(|lag| panic!("{lag}"));
    let _entered = recorder.enter();
    let (prices, mut chart) = broadcast::channel(4);
    let lags = || lag(&prices, &mut chart, 1);
    assert!(panic::catch_unwind(panic::AssertUnwindSafe(lags)).is_err());
    wait_for(&recorder, 1);
    assert_eq!(recorder.dumps().written(), 1);
    fs::remove_dir_all(folder).unwrap();
}
