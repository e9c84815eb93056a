//! The closings of runs.

use crate::findings::{closing, late};
use crate::texts::rows::run_of;
use proved::Global;
use proved::rw_findings::{Closing, Closings, LateReader, closings_of};
use proved::rw_journal::Run;

/// What a script is about, its lines, the closings of its run, and the receivers that were there then.
type Row = (
    &'static str,
    &'static [u8],
    &'static [Closing],
    &'static [LateReader],
);

static ROWS: [Row; 7] = [
    (
        "open_at_the_end",
        b"broadcast 2\n0 0 clone-sender 0\n0 0 drop 0\n0 0 send 2 1\n",
        &[],
        &[],
    ),
    (
        "told_after_two_values",
        b"broadcast 4\n0 0 send 0 1\n0 0 send 0 2\n0 0 try-recv 1\n0 0 drop 0\n0 0 try-recv 1\n0 0 try-recv 1\n0 0 try-recv 1\n",
        &[closing(0, 4)],
        &[late(0, 1, Some(6), 1)],
    ),
    (
        "at_the_last_of_two_senders",
        b"broadcast 2\n0 0 clone-sender 0\n0 0 drop 0\n0 0 drop 2\n",
        &[closing(0, 3)],
        &[late(0, 1, None, 0)],
    ),
    (
        "a_weak_sender_keeps_nothing_open",
        b"broadcast 2\n0 0 downgrade 0\n0 0 subscribe 0\n0 0 drop 1\n0 0 drop 0\n0 0 try-recv 3\n",
        &[closing(0, 4)],
        &[late(0, 3, Some(5), 0)],
    ),
    (
        "a_watch_tells_of_one_change_more",
        b"watch 4\n0 0 send 0 5\n0 0 drop 0\n0 0 changed 1\n0 0 changed 1\n0 0 has-changed 1\n",
        &[closing(0, 2)],
        &[late(0, 1, Some(4), 1)],
    ),
    (
        "told_by_has_changed",
        b"watch 4\n0 0 drop 0\n0 0 borrow 1\n0 0 has-changed 1\n",
        &[closing(0, 1)],
        &[late(0, 1, Some(3), 0)],
    ),
    (
        "two_channels",
        b"broadcast 1\nwatch 4\n0 1 drop 0\n0 0 drop 0\n0 1 changed 1\n0 0 resubscribe 1\n0 0 try-recv 2\n",
        &[
            closing(0, 2),
            closing(1, 1),
        ],
        &[
            late(0, 1, None, 0),
            late(1, 1, Some(3), 0),
        ],
    ),
];

/// Returns the closings of a run.
fn closings_in<V: Copy>(run: Run<V>) -> Closings {
    let closings = closings_of(Global, &run);
    closings.unwrap()
}

/// Asserts that the run of a script has these closings.
fn are_found((name, script, channels, readers): &Row) {
    let closings = closings_in(run_of(script));
    assert_eq!(closings.channels.as_slice(), *channels, "{name}");
    assert_eq!(closings.readers.as_slice(), *readers, "{name}");
}

#[test]
fn closings_are_found() {
    for row in &ROWS {
        are_found(row);
    }
}
