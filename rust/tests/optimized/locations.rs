//! Where calls are made, and senders and receivers: the file and the line, as the names beside a
//! journal say.

use crate::support::named::{call_lines, locations, made_lines, member};
use crate::support::{accepted, poll_once};
use yovanelum::{Polled, Recorder, block_on, broadcast, watch};

/// Evaluates an expression on one line, and adds that line to a list.
macro_rules! at {
    ($lines:ident, $call:expr) => {{
        $lines.push(Some(line!()));
        $call
    }};
}

#[test]
fn each_call_on_a_broadcast_has_its_line() {
    let recorder = Recorder::new();
    let _entered = recorder.enter();
    let mut lines = vec![];
    let (tx, mut rx) = broadcast::channel(2);
    at!(lines, tx.send(1).unwrap());
    at!(lines, rx.try_recv().unwrap());
    at!(lines, tx.send(2).unwrap());
    at!(lines, block_on(rx.recv()).unwrap());
    at!(lines, tx.send(3).unwrap());
    at!(lines, rx.blocking_recv().unwrap());
    at!(lines, rx.len());
    at!(lines, rx.is_empty());
    let other = at!(lines, rx.resubscribe());
    let another = at!(lines, tx.subscribe());
    let clone = at!(lines, tx.clone());
    let weak = at!(lines, tx.downgrade());
    let upgraded = at!(lines, weak.upgrade().unwrap());
    let weak_clone = at!(lines, weak.clone());
    at!(lines, tx.len());
    at!(lines, tx.is_empty());
    at!(lines, tx.receiver_count());
    // A drop is called by the compiler.
    drop((rx, other, another, clone, weak, upgraded, weak_clone));
    lines.extend([None; 7]);
    at!(lines, block_on(tx.closed()));
    at!(lines, tx.send(4).unwrap_err());
    assert_eq!(call_lines(&recorder.names(), 0, file!()), lines);
    assert_eq!(accepted(&recorder, "lines"), lines.len() as u64);
}

#[test]
fn each_call_on_a_watch_has_its_line() {
    let recorder = Recorder::new();
    let _entered = recorder.enter();
    let mut lines = vec![];
    let (tx, mut rx) = watch::channel(0);
    at!(lines, tx.send(1).unwrap());
    at!(lines, block_on(rx.changed()).unwrap());
    at!(lines, tx.send_replace(2));
    at!(lines, tx.send_modify(|value| *value = 3));
    at!(lines, tx.send_if_modified(|_| false));
    at!(lines, drop(tx.borrow()));
    at!(lines, drop(rx.borrow()));
    at!(lines, drop(rx.borrow_and_update()));
    at!(lines, rx.has_changed().unwrap());
    at!(lines, rx.mark_changed());
    at!(lines, rx.mark_unchanged());
    at!(lines, drop(block_on(rx.wait_for(|value| *value == 3))));
    at!(lines, tx.is_closed());
    at!(lines, tx.receiver_count());
    let other = at!(lines, tx.subscribe());
    let clone = at!(lines, rx.clone());
    let sender = at!(lines, tx.clone());
    drop((rx, other, clone, sender));
    lines.extend([None; 4]);
    at!(lines, block_on(tx.closed()));
    // Without receivers a send is refused, also while the value is locked.
    let borrowed = at!(lines, tx.borrow());
    at!(lines, tx.send(4).unwrap_err());
    drop(borrowed);
    assert_eq!(call_lines(&recorder.names(), 0, file!()), lines);
    assert_eq!(accepted(&recorder, "watch-lines"), lines.len() as u64);
}

#[test]
fn a_location_is_a_file_with_the_line_and_the_column_of_the_method() {
    let recorder = Recorder::new();
    let _entered = recorder.enter();
    let line = line!() + 1;
    let (tx, _rx) = broadcast::channel(2);
    tx.send(1).unwrap();
    let names = recorder.names();
    let file = file!();
    // The function begins at column 21, and the method after `tx.` at column 8.
    let wanted = format!("[[\"{file}\", {line}, 21], [\"{file}\", {}, 8]]", line + 1);
    assert_eq!(member(&names, "locations"), wanted);
    assert_eq!(member(&names, "made"), r#"{"0": {"0": 0, "1": 0}}"#);
    assert_eq!(member(&names, "calls"), r#"{"0": [1]}"#);
    assert_eq!(member(&names, "version"), "3");
}

#[test]
fn senders_and_receivers_have_the_line_at_which_they_were_made() {
    let recorder = Recorder::new();
    let _entered = recorder.enter();
    let mut lines = vec![];
    let (tx, rx) = at!(lines, broadcast::channel::<u8>(2));
    let weak = at!(lines, tx.downgrade());
    let _clone = at!(lines, tx.clone());
    let _second = at!(lines, tx.subscribe());
    let _third = at!(lines, rx.resubscribe());
    let _other_weak = at!(lines, weak.clone());
    let _upgraded = at!(lines, weak.upgrade());
    drop(tx);
    let mut wanted = vec![(0, lines[0])];
    wanted.extend((1..).zip(lines));
    let made = |channel| {
        let made = made_lines(&recorder.names(), channel).into_iter();
        made.map(|(handle, line)| (handle, Some(line)))
            .collect::<Vec<_>>()
    };
    assert_eq!(made(0), wanted);
    let mut lines = vec![];
    let bus = at!(lines, broadcast::Sender::<u8>::new(2));
    let _rx = at!(lines, bus.subscribe());
    assert_eq!(made(1), [(0, lines[0]), (1, lines[0]), (2, lines[1])]);
    let mut lines = vec![];
    let state = at!(lines, watch::Sender::<u8>::default());
    let rx = at!(lines, state.subscribe());
    let _clone = at!(lines, rx.clone());
    assert_eq!(
        made(2),
        [(0, lines[0]), (1, lines[0]), (2, lines[1]), (3, lines[2])]
    );
}

#[test]
fn a_call_that_waits_has_the_line_of_its_call_and_not_of_its_await() {
    let recorder = Recorder::new();
    let _entered = recorder.enter();
    let mut lines = vec![];
    let (tx, mut rx) = watch::channel(0);
    let changed_at = line!() + 1;
    let changed = rx.changed();
    at!(lines, tx.send(1).unwrap());
    block_on(changed).unwrap();
    lines.push(Some(changed_at));
    assert_eq!(call_lines(&recorder.names(), 0, file!()), lines);
}

#[test]
fn a_call_that_waits_has_no_line_before_it_ends() {
    let recorder = Recorder::new();
    let _entered = recorder.enter();
    let mut lines = vec![];
    let (tx, mut rx) = broadcast::channel(2);
    assert_eq!(poll_once(rx.recv()), None);
    assert_eq!(poll_once(tx.closed()), None);
    assert_eq!(call_lines(&recorder.names(), 0, file!()), lines);
    at!(lines, tx.send(1).unwrap());
    at!(lines, poll_once(rx.recv()).unwrap().unwrap());
    assert_eq!(call_lines(&recorder.names(), 0, file!()), lines);
}

#[test]
fn what_a_stream_receives_has_the_line_at_which_the_stream_was_made() {
    let recorder = Recorder::new();
    let _entered = recorder.enter();
    let mut lines = vec![];
    let (tx, rx) = broadcast::channel(2);
    let made_at = line!() + 1;
    let mut stream = Polled::new(rx);
    let mut next = || block_on(std::future::poll_fn(|context| stream.poll_recv(context)));
    at!(lines, tx.send(1).unwrap());
    assert_eq!(next(), Ok(1));
    drop(tx);
    assert!(next().is_err());
    lines.extend([Some(made_at), None, Some(made_at)]);
    assert_eq!(call_lines(&recorder.names(), 0, file!()), lines);
}

#[test]
fn questions_that_leave_no_entry_have_no_line() {
    let recorder = Recorder::new();
    let _entered = recorder.enter();
    recorder.quiet_questions();
    let mut lines = vec![];
    let (tx, rx) = watch::channel(0);
    assert!(!tx.is_closed() && !rx.has_changed().unwrap());
    assert_eq!((*tx.borrow(), tx.receiver_count()), (0, 1));
    at!(lines, tx.send(1).unwrap());
    assert_eq!(call_lines(&recorder.names(), 0, file!()), lines);
}

#[test]
fn each_location_is_listed_once_for_all_channels() {
    let recorder = Recorder::new();
    let _entered = recorder.enter();
    let mut kept = vec![];
    for _ in 0..3 {
        let (tx, rx) = broadcast::channel(2);
        for _ in 0..10 {
            tx.send(1).unwrap();
        }
        kept.push((tx, rx));
    }
    let names = recorder.names();
    assert_eq!(locations(&names).len(), 2, "{names}");
    let ones = ["1"; 10].join(", ");
    let calls = format!(r#"{{"0": [{ones}], "1": [{ones}], "2": [{ones}]}}"#);
    assert_eq!(member(&names, "calls"), calls);
}

#[test]
fn a_channel_that_is_recorded_by_none_keeps_no_line() {
    let recorder = Recorder::new();
    let (tx, _rx) = broadcast::channel(2);
    let entered = recorder.enter();
    tx.send(1).unwrap();
    drop(tx.subscribe());
    drop(entered);
    assert_eq!(member(&recorder.names(), "locations"), "");
    assert_eq!(member(&recorder.names(), "calls"), "");
}
