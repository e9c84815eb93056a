//! The runs of scripts, which stay the same when they are written as text and read again.

use crate::shared::{counts_of, written};
use proved::Global;
use proved::rw_journal::Run;
use proved::rw_law::{Entry, Payload};
use proved::rw_script::{Script, run_one};
use proved::rw_text::read;
use proved::rw_world::World;
use std::fmt::Debug;

/// Three values go through a channel that retains two, and one receiver receives four times.
pub const OVERRUN: &[u8] =
    b"broadcast 2\n0 0 send 0 1\n0 0 send 0 2\n0 0 send 0 3\n0 0 try-recv 1\n0 0 try-recv 1\n0 0 try-recv 1\n0 0 try-recv 1\n";

/// Values are sent, and received in between.
pub const UNREAD: &[u8] =
    b"broadcast 4\n0 0 send 0 1\n0 0 send 0 2\n0 0 send 0 3\n0 0 recv 1\n0 0 send 0 4\n0 0 recv 1\n";

/// Two actors, each on a channel.
pub const TWO_CHANNELS: &[u8] = b"broadcast 2\nwatch 5\nactors 2\n0 0 send 0 1\n1 1 send 0 6\n";

/// A script for each row: what it is about, its lines, and how many entries its run has. The one of the handle limit is
/// `handle_limit`.
pub static SCRIPTS: [(&str, &[u8], u64); 20] = [
    ("empty_session", b"broadcast 4\n", 0),
    ("overrun_walked_back", OVERRUN, 7),
    (
        "capacity_is_rounded_up",
        b"broadcast 3\n0 0 send 0 1\n0 0 send 0 2\n0 0 send 0 3\n0 0 send 0 4\n0 0 send 0 5\n0 0 try-recv 1\n",
        6,
    ),
    (
        "lagged_then_closed",
        b"broadcast 1\n0 0 send 0 1\n0 0 send 0 2\n0 0 drop 0\n0 0 try-recv 1\n0 0 try-recv 1\n0 0 try-recv 1\n",
        6,
    ),
    (
        "send_without_receivers",
        b"broadcast 4\n0 0 drop 1\n0 0 send 0 9\n0 0 subscribe 0\n0 0 send 0 9\n0 0 recv 2\n",
        5,
    ),
    (
        "drop_reads_the_rest",
        b"broadcast 4\n0 0 send 0 5\n0 0 send 0 6\n0 0 drop 1\n",
        3,
    ),
    (
        "resubscribe_skips_the_backlog",
        b"broadcast 2\n0 0 send 0 1\n0 0 send 0 2\n0 0 send 0 3\n0 0 send 0 4\n0 0 send 0 5\n0 0 resubscribe 1\n0 0 send 0 6\n0 0 receiver-len 1\n0 0 receiver-len 2\n",
        9,
    ),
    (
        "sender_len_counts_the_slowest",
        b"broadcast 16\n0 0 subscribe 0\n0 0 send 0 10\n0 0 send 0 20\n0 0 send 0 30\n0 0 sender-len 0\n0 0 recv 1\n0 0 sender-len 0\n0 0 recv 2\n0 0 sender-len 0\n",
        9,
    ),
    (
        "same_value_is_a_change",
        b"watch 7\n0 0 has-changed 1\n0 0 send 0 7\n0 0 has-changed 1\n0 0 changed 1\n0 0 has-changed 1\n",
        5,
    ),
    (
        "last_change_of_a_closed_watch",
        b"watch 7\n0 0 send 0 8\n0 0 drop 0\n0 0 has-changed 1\n0 0 changed 1\n0 0 changed 1\n0 0 borrow 1\n",
        6,
    ),
    (
        "watch_without_receivers",
        b"watch 1\n0 0 drop 1\n0 0 is-closed 0\n0 0 closed 0\n0 0 receiver-count 0\n0 0 send 0 2\n0 0 borrow 0\n0 0 send-replace 0 3\n0 0 subscribe 0\n0 0 has-changed 2\n0 0 borrow 2\n",
        10,
    ),
    (
        "silent_modification",
        b"watch 1\n0 0 modify 0 5 no\n0 0 borrow 1\n0 0 has-changed 1\n",
        3,
    ),
    (
        "marks_are_cloned",
        b"watch 4\n0 0 mark-changed 1\n0 0 mark-changed 1\n0 0 clone-receiver 1\n0 0 mark-unchanged 1\n0 0 has-changed 1\n0 0 has-changed 2\n0 0 changed 2\n",
        7,
    ),
    ("searches_on_unread", UNREAD, 6),
    (
        "small_journal",
        b"broadcast 4\n0 0 send 0 7\n0 0 try-recv 1\n0 0 drop 0\n",
        3,
    ),
    (
        "a_call_that_would_wait",
        b"broadcast 2\n0 0 recv 1\n0 0 send 0 1\n",
        0,
    ),
    (
        "refused_handles",
        b"broadcast 2\n0 0 send 5 1\n0 0 send 1 1\n0 0 recv 0\n0 0 drop 1\n0 0 recv 1\n",
        5,
    ),
    (
        "names_in_scripts",
        b"broadcast 2\n0 0 subscribe 0 as r\n0 0 send 0 3\n0 0 try-recv r\n",
        3,
    ),
    ("two_channels", TWO_CHANNELS, 2),
    (
        "weak_senders",
        b"broadcast 2\n0 0 downgrade 0\n0 0 upgrade 2\n0 0 drop 0\n0 0 try-recv 1\n0 0 drop 3\n0 0 upgrade 2\n0 0 try-recv 1\n",
        7,
    ),
];

/// Returns a script that makes all the senders that a channel makes, and two that it doesn't, with a drop in between.
pub fn handle_limit() -> Vec<u8> {
    let lines = b"0 0 clone-sender 0\n".repeat(65_535);

    [
        b"broadcast 1\n".as_slice(),
        lines.as_slice(),
        b"0 0 drop 2\n0 0 clone-sender 0\n".as_slice(),
    ]
    .concat()
}

/// Returns the run of a script.
pub fn run_of(script: &[u8]) -> Run<u64> {
    let script = Script::read(Global, script).unwrap();
    let ran = run_one(Global, &script);
    let (run, _) = ran.unwrap();
    run
}

/// Asserts that two entries are the same in all that they have.
fn is_same<V: Copy + PartialEq + Debug>(
    name: &str,
    one: &Entry<World<V>>,
    other: &Entry<World<V>>,
) {
    assert_eq!(
        (one.actor, one.stamp, one.call, one.reply, one.patch),
        (
            other.actor,
            other.stamp,
            other.call,
            other.reply,
            other.patch,
        ),
        "{name}"
    );
}

/// Asserts that the entries of two runs are the same.
fn are_same<V: Copy + PartialEq + Debug>(
    name: &str,
    entries: &[Entry<World<V>>],
    again: &[Entry<World<V>>],
) {
    for (entry, again) in entries.iter().zip(again) {
        is_same(name, again, entry);
    }
}

/// Asserts that two runs are the same in all that they have, and that they have this many entries.
fn compare<V: Copy + PartialEq + Debug>(name: &str, run: &Run<V>, again: &Run<V>, entries: usize) {
    let channels = run.specs().len();
    let counts = (counts_of(run), counts_of(again));
    assert_eq!(counts, ((channels, entries), (channels, entries)), "{name}");
    let has_specs = run.specs() == again.specs();
    assert!(has_specs, "{name}");
    are_same(name, run.entries(), again.entries());
}

/// Reads a text, and compares its run with another. Returns whether the text is written for it again.
fn read_and_write<V: Payload + PartialEq + Debug>(
    name: &str,
    run: &Run<V>,
    entries: usize,
    text: &[u8],
) -> bool {
    let again = read(Global, text).unwrap();
    compare(name, run, &again, entries);
    let second = written(&again, 4096, None);
    let (second, text_again) = second;

    second.is_ok() && text_again.as_slice() == text
}

/// Writes a run, reads it again, and writes what was read. Asserts that run and text are the same.
fn write_and_read<V: Payload + PartialEq + Debug>(name: &str, run: &Run<V>, entries: usize) {
    let (first, text) = written(run, 4096, None);
    let kept = read_and_write(name, run, entries, &text);
    assert_eq!((first.is_ok(), kept), (true, true), "{name}");
}

/// Asserts that the run of a script has this many entries, and is the same when it is written and read again.
fn is_kept(name: &str, script: &[u8], entries: usize) {
    let run = run_of(script);
    write_and_read(name, &run, entries);
}

#[test]
fn each_run_is_written_and_read_again() {
    for (name, script, entries) in &SCRIPTS {
        is_kept(name, script, *entries as usize);
    }
    let script = handle_limit();
    is_kept("handle_limit", &script, 65_537)
}
