//! What a flight recorder keeps: the last calls of each channel, with where they were made, the
//! names and texts of what they are about, and when they were.

use super::support::named::{call_lines, member};
use super::windows::{callers, lead, texts, times, trigger, windows};
use std::collections::BTreeMap;
use std::thread;
use yovanelum::broadcast::error::TryRecvError;
use yovanelum::debugger::Walk;
use yovanelum::{Recorder, block_on, broadcast, named, watch};

#[test]
fn a_channel_keeps_at_least_so_many_calls_and_at_most_twice_as_many() {
    let recorder = Recorder::flight(100);
    let _entered = recorder.enter();
    let (prices, mut chart) = broadcast::channel(4);
    for calls in (2..1000).step_by(2) {
        prices.send(calls).unwrap();
        assert_eq!(chart.try_recv(), Ok(calls));
        assert!((calls.min(100)..=calls.min(200)).contains(&recorder.len()));
    }
}

#[test]
fn a_short_run_has_no_lead() {
    let recorder = Recorder::flight(100);
    let _entered = recorder.enter();
    let (prices, mut chart) = broadcast::channel(2);
    for price in [101, 102, 103] {
        prices.send(price).unwrap();
    }
    assert!(chart.try_recv().is_err());
    let journal = recorder.journal().unwrap();
    let calls: Vec<_> = journal
        .lines()
        .filter_map(|line| line.split_once(" 0 0 "))
        .collect();
    let stamps: Vec<u64> = calls
        .iter()
        .map(|(stamp, _)| stamp.parse().unwrap())
        .collect();
    assert_eq!(stamps, [67_108_865, 67_108_866, 67_108_867, 67_108_868]);
    assert_eq!(calls[3].1, "try-recv 1 = lagged 1");
    let names = recorder.names();
    assert_eq!((lead(&names), trigger(&names)), (0, "call"));
    let window = &windows(&names)[0];
    assert_eq!(
        (window.calls, window.sent, &*window.handles),
        (0, Some(0), &[Some(0), Some(1)][..])
    );
    assert!(!names.contains("before the window"));
}

/// Returns what an object of the names has of the first channel.
fn of_first_channel(names: &str, key: &str) -> BTreeMap<u64, String> {
    let object = member(names, key).strip_prefix("{\"0\": ").unwrap();
    texts(object.trim_end_matches('}'))
}

/// A channel on which a hundred receivers came and went, and then a hundred values.
fn busy(recorder: &Recorder) -> [broadcast::Receiver<u64>; 2] {
    let (prices, chart) = broadcast::channel(2);
    let named = recorder.name(&prices, "prices").name(&chart, "chart");
    named.show(&prices, |price| format!("{price} EUR"));
    for connection in 0..100 {
        recorder.name(&prices.subscribe(), &format!("connection {connection}"));
    }
    let mut audit = prices.subscribe();
    recorder.name(&audit, "audit");
    for price in 0..100 {
        prices.send(price).unwrap();
        let _ = audit.try_recv();
    }
    recorder.name(&prices.subscribe(), "the last connection");
    [chart, audit]
}

#[test]
fn names_are_those_of_handles_that_the_journal_has() {
    let recorder = Recorder::flight(4);
    let _entered = recorder.enter();
    let _alive = busy(&recorder);
    let names = recorder.names();
    let (window, named) = (&windows(&names)[0], of_first_channel(&names, "handles"));
    let of = |name: &str| {
        let found = named.iter().find(|(_, named)| *named == name);
        window.handles[*found.unwrap().0 as usize]
    };
    // Of the 101 that were dropped, the journal has the last one.
    assert_eq!(named.len(), 3);
    let all = ["chart", "audit", "the last connection"].map(of);
    assert_eq!(all, [Some(1), Some(102), Some(103)]);
    let actors = texts(member(&names, "actors"));
    assert_eq!(actors[&63], "before the window");
}

#[test]
fn texts_are_those_of_values_that_the_journal_has() {
    let recorder = Recorder::flight(8);
    let _entered = recorder.enter();
    let _alive = busy(&recorder);
    let (journal, names) = (recorder.journal().unwrap(), recorder.names());
    let values = of_first_channel(&names, "values");
    let sends = journal.lines().filter(|line| !line.contains(" 63 0 "));
    let mut sends = sends.filter(|line| line.contains(" send "));
    let sent = sends.next().and_then(|line| line.split(' ').nth(5));
    let first: u64 = sent.unwrap().parse().unwrap();
    // The channel retains two values before the window.
    let wanted = (first - 2..100).map(|value| (value, format!("{value} EUR")));
    assert!(wanted.eq(values), "{first}");
}

#[test]
fn the_first_value_keeps_its_text_where_it_was_not_overwritten() {
    let recorder = Recorder::flight(4);
    let _entered = recorder.enter();
    // None of these values is overwritten.
    let (prices, _chart) = broadcast::channel(64);
    recorder.show(&prices, |price| format!("{price} EUR"));
    for price in 0..40 {
        prices.send(price).unwrap();
    }
    let names = recorder.names();
    assert!(lead(&names) > 0);
    let wanted = (0..40).map(|value| (value, format!("{value} EUR")));
    assert!(wanted.eq(of_first_channel(&names, "values")));
}

#[test]
fn each_call_has_its_place_and_the_lead_has_none() {
    let recorder = Recorder::flight(3);
    let _entered = recorder.enter();
    let (config, mut server) = watch::channel(0);
    for version in 1..20 {
        config.send(version).unwrap();
        assert_eq!(*server.borrow_and_update(), version);
    }
    let sent_at = line!() + 1;
    config.send(20).unwrap();
    let names = recorder.names();
    let lead = lead(&names);
    let lines = call_lines(&names, 0, file!());
    assert!(lead > 0 && lines[..lead as usize].iter().all(Option::is_none));
    assert!(lines[lead as usize..].iter().all(Option::is_some));
    assert_eq!(lines.last(), Some(&Some(sent_at)));
}

#[test]
fn a_window_goes_on_where_dropped_handles_are_taken_out() {
    let recorder = Recorder::flight(1_000);
    let _entered = recorder.enter();
    let (prices, mut chart) = broadcast::channel(4);
    recorder.name(&prices, "prices").name(&chart, "chart");
    for connection in 0..150_000 {
        drop(prices.subscribe());
        // Each is two calls.
        assert!(recorder.len() >= 1_000.min(2 * connection + 2));
        assert!(recorder.len() <= 2_000);
    }
    prices.send(7).unwrap();
    assert_eq!(chart.try_recv(), Ok(7));
    let mut late = prices.subscribe();
    assert!(late.try_recv().is_err());
    let (journal, names) = (recorder.journal().unwrap(), recorder.names());
    let mut walk = Walk::open(journal.as_bytes()).unwrap();
    let end = walk.len();
    walk.go_to(end);
    let window = &windows(&names)[0];
    let alive: Vec<_> = walk
        .channel(0)
        .unwrap()
        .receivers()
        .map(|it| window.handles[it as usize])
        .collect();
    assert_eq!(alive, [Some(1), Some(150_002)]);
    assert_eq!(window.calls + end - window.lead, 300_004);
    // Each handle of the window has its number in the channel.
    let made: Vec<u64> = window.handles.iter().flatten().copied().collect();
    assert_eq!(&made[..2], [0, 1]);
    assert!(made[2..].iter().copied().eq(made[2]..=150_002));
    assert_eq!(
        recorder.snapshot().channels()[0].receivers()[1].name(),
        "receiver 150002"
    );
    assert!(member(&names, "handles").contains("\"chart\""));
}

#[test]
fn a_wait_that_began_before_dropped_handles_were_taken_out_has_its_receiver() {
    let recorder = Recorder::flight(100);
    let _entered = recorder.enter();
    let (prices, _chart) = broadcast::channel::<u32>(4);
    let gone: Vec<_> = (0..300).map(|_| prices.subscribe()).collect();
    let mut audit = prices.subscribe();
    let mut wait = Box::pin(audit.recv());
    assert!(super::support::poll_once(wait.as_mut()).is_none());
    drop(gone);
    for _ in 0..150 {
        drop(prices.subscribe());
    }
    assert_eq!(waiting_in(&recorder.names()).1, Some(302));
}

/// The handle in the journal whose call waits, and how many its channel had created before it.
fn waiting_in(names: &str) -> (usize, Option<u64>) {
    let waiting = member(names, "waiting");
    let handle = waiting.split("\"handle\": ").nth(1).unwrap();
    let handle: usize = handle.split([',', '}']).next().unwrap().parse().unwrap();
    (handle, windows(names)[0].handles[handle])
}

#[test]
fn a_wait_has_the_number_of_its_receiver_in_the_journal() {
    let recorder = Recorder::flight(10);
    let _entered = recorder.enter();
    let (prices, mut chart) = broadcast::channel::<u32>(4);
    (0..4).for_each(|_| drop(prices.subscribe()));
    let mut audit = prices.subscribe();
    let mut wait = Box::pin(audit.recv());
    assert!(super::support::poll_once(wait.as_mut()).is_none());
    // The four that were dropped have no number behind the lead.
    (0..40).for_each(|_| assert!(chart.try_recv().is_err()));
    assert_eq!(waiting_in(&recorder.names()), (2, Some(6)));
}

#[test]
fn as_many_handles_are_alive_as_a_lead_has_room_for() {
    for (receivers, is_recorded) in [(65_532, true), (65_533, false)] {
        let recorder = Recorder::flight(1_000);
        let _entered = recorder.enter();
        let (prices, _chart) = broadcast::channel::<u32>(4);
        let _all: Vec<_> = (0..receivers).map(|_| prices.subscribe()).collect();
        assert_eq!(recorder.journal().is_ok(), is_recorded);
        assert_eq!(recorder.names().contains("\"handles\": 1"), !is_recorded);
    }
}

#[test]
fn a_channel_is_recorded_again_once_there_is_room_for_its_handles() {
    let recorder = Recorder::flight(1_000);
    let _entered = recorder.enter();
    let (orders, _mailer) = broadcast::channel(4);
    let (prices, mut chart) = broadcast::channel(4);
    recorder.name(&orders, "orders").name(&prices, "prices");
    let mut all: Vec<_> = (0..70_000).map(|_| prices.subscribe()).collect();
    prices.send(7).unwrap();
    assert_eq!((chart.try_recv(), all[69_999].try_recv()), (Ok(7), Ok(7)));
    orders.send(8).unwrap();
    let names = recorder.names();
    assert_eq!(member(&names, "channels"), "{\"0\": \"orders\"}");
    assert!(member(&names, "unrecorded").contains("\"handles\": 1"));
    for price in 0..6 {
        prices.send(price).unwrap();
    }
    drop(all);
    // There is room again: these are kept, from a window in which 6 values are unread.
    prices.send(9).unwrap();
    assert_eq!(chart.try_recv(), Err(TryRecvError::Lagged(3)));
    let late = prices.subscribe();
    recorder.name(&late, "late");
    assert_eq!(chart.try_recv(), Ok(3));
    let (journal, names) = (recorder.journal().unwrap(), recorder.names());
    let walk = Walk::open(journal.as_bytes()).unwrap();
    let last = |before: u64| walk.entry(walk.len() - before).unwrap();
    assert_eq!((last(3).reply(), last(3).returned()), ("sent", Some(1)));
    assert_eq!((last(2).reply(), last(2).returned()), ("lagged", Some(3)));
    // The values are numbered: 7 is 0, and 3 is 4.
    assert_eq!((last(0).reply(), last(0).returned()), ("value", Some(4)));
    assert!(member(&names, "unrecorded").is_empty());
    assert!(member(&names, "handles").contains("\"late\""));
    let window = &windows(&names)[1];
    // A creation of 70,000, two sends before those and six after, two receives, and the drops.
    assert_eq!(window.calls, 70_000 + 1 + 6 + 2 + 70_000);
    // The channel was created with two handles, and the window has those alive.
    assert_eq!(window.handles.iter().flatten().max(), Some(&70_002));
}

#[test]
fn each_caller_has_its_name_also_where_several_share_a_number() {
    let recorder = Recorder::flight(1_000);
    let _entered = recorder.enter();
    let (prices, _chart) = broadcast::channel(4);
    let mut waits = Vec::new();
    for number in 0..200 {
        let mut rx = prices.subscribe();
        let mut task = Box::pin(named(
            &format!("task {number}"),
            async move { rx.recv().await },
        ));
        assert!(super::support::poll_once(task.as_mut()).is_none());
        waits.push(task);
    }
    prices.send(7).unwrap();
    for task in waits {
        block_on(task).unwrap();
    }
    let (journal, names) = (recorder.journal().unwrap(), recorder.names());
    let actors = texts(member(&names, "actors"));
    assert!(actors[&62].ends_with("others"), "{}", actors[&62]);
    let callers = callers(&names, 0);
    let mut received = 0;
    let calls = journal.lines().filter(|line| line.contains(" = "));
    for (index, line) in (0..).zip(calls) {
        let mut words = line.split(' ').skip(1);
        let actor: u64 = words.next().unwrap().parse().unwrap();
        let name = &actors[callers.get(&index).unwrap_or(&actor)];
        // The task with the number 0 has the receiver 2.
        if let Some((_, call)) = line.split_once(" recv ") {
            let receiver: u32 = call.split(' ').next().unwrap().parse().unwrap();
            assert_eq!(*name, format!("task {}", receiver - 2));
            received += 1;
        }
    }
    assert_eq!(received, 200);
}

#[test]
fn times_rise_with_the_stamps() {
    let recorder = Recorder::flight(3_000);
    let _entered = recorder.enter();
    let (prices, mut chart) = broadcast::channel(4);
    for price in 0..10_000 {
        prices.send(price).unwrap();
        assert_eq!(chart.try_recv(), Ok(price));
    }
    // Two chunks at most, each with its first call and two more.
    let times = times(&recorder.names());
    assert!((3..=6).contains(&times.len()), "{times:?}");
    for pair in times.windows(2) {
        assert!(pair[0][0] < pair[1][0] && pair[0][2] <= pair[1][2]);
    }
}

#[test]
#[cfg_attr(target_family = "wasm", ignore = "WebAssembly has no threads")]
fn calls_of_several_threads_are_in_their_order() {
    let recorder = Recorder::flight(500);
    let _entered = recorder.enter();
    let channels: Vec<_> = (0..4).map(|_| broadcast::channel(16)).collect();
    thread::scope(|scope| {
        for (tx, mut rx) in channels {
            scope.spawn(move || {
                for value in 0..5_000 {
                    tx.send(value).unwrap();
                    rx.try_recv().unwrap();
                }
            });
        }
        for _ in 0..20 {
            let journal = recorder.journal().unwrap();
            Walk::open(journal.as_bytes()).unwrap();
        }
    });
}

/// How many pages this thread has touched first.
#[cfg(all(target_os = "linux", target_arch = "x86_64"))]
fn page_faults() -> u64 {
    let line = std::fs::read_to_string("/proc/thread-self/stat").unwrap();
    // Behind the name, which is in brackets, it is the eighth field.
    let (_, fields) = line.rsplit_once(") ").unwrap();
    fields.split(' ').nth(7).unwrap().parse().unwrap()
}

// On an emulated processor the emulator's would be counted.
#[cfg(all(target_os = "linux", target_arch = "x86_64"))]
#[test]
fn the_lists_of_a_chunk_take_the_memory_of_those_that_are_forgotten() {
    let recorder = Recorder::flight(10_000);
    let _entered = recorder.enter();
    let (prices, _chart) = broadcast::channel::<u32>(16);
    // Each chunk has 5,000 dropped handles, which are taken out at its end.
    let chunks = |count: u32| (0..count * 5_000).for_each(|_| drop(prices.subscribe()));
    chunks(4);
    let more = || {
        let before = page_faults();
        chunks(20);
        page_faults() - before
    };
    // It is 2,300 each time where the memory of these lists is given back. The allocator also gives
    // back what tests leave that run beside this one, so the least of some is judged.
    let more = (0..5).map(|_| more()).min().unwrap();
    assert!(more < 1_000, "{more} pages");
}
