//! The losses of runs.

use crate::findings::loss;
use crate::texts::rows::{OVERRUN, run_of};
use proved::Global;
use proved::rw_findings::{Loss, LossEnd, losses_of};
use proved::rw_journal::Run;

/// What a script is about, its lines, and the losses of its run.
type Row = (&'static str, &'static [u8], &'static [Loss]);

static ROWS: [Row; 8] = [
    (
        "told",
        OVERRUN,
        &[loss(0, 1, (3, 1), LossEnd::Told(4))],
    ),
    (
        "capacity_is_rounded_up",
        b"broadcast 3\n0 0 send 0 1\n0 0 send 0 2\n0 0 send 0 3\n0 0 send 0 4\n0 0 send 0 5\n0 0 try-recv 1\n",
        &[loss(0, 1, (5, 1), LossEnd::Told(6))],
    ),
    (
        "told_after_the_close",
        b"broadcast 1\n0 0 send 0 1\n0 0 send 0 2\n0 0 drop 0\n0 0 try-recv 1\n0 0 try-recv 1\n0 0 try-recv 1\n",
        &[loss(0, 1, (2, 1), LossEnd::Told(4))],
    ),
    (
        "dropped_with_unread_values",
        b"broadcast 4\n0 0 send 0 5\n0 0 send 0 6\n0 0 drop 1\n",
        &[],
    ),
    (
        "never_told",
        b"broadcast 2\n0 0 send 0 1\n0 0 send 0 2\n0 0 send 0 3\n0 0 send 0 4\n0 0 send 0 5\n0 0 resubscribe 1\n0 0 send 0 6\n0 0 receiver-len 1\n0 0 receiver-len 2\n",
        &[loss(0, 1, (3, 4), LossEnd::Open)],
    ),
    (
        "dropped_while_it_lags",
        b"broadcast 1\n0 0 send 0 1\n0 0 send 0 2\n0 0 send 0 3\n0 0 drop 1\n",
        &[loss(0, 1, (2, 2), LossEnd::Dropped(4))],
    ),
    (
        "two_of_one_receiver",
        b"broadcast 1\n0 0 send 0 1\n0 0 send 0 2\n0 0 try-recv 1\n0 0 send 0 3\n0 0 send 0 4\n0 0 try-recv 1\n",
        &[
            loss(0, 1, (2, 1), LossEnd::Told(3)),
            loss(0, 1, (4, 2), LossEnd::Told(6)),
        ],
    ),
    (
        "in_order",
        b"broadcast 1\nwatch 4\nbroadcast 1\n0 0 subscribe 0\n0 0 send 0 1\n0 2 send 0 1\n0 2 send 0 2\n0 0 send 0 2\n0 1 send 0 5\n0 0 try-recv 2\n0 2 drop 1\n0 0 send 0 3\n0 0 drop 1\n",
        &[
            loss(2, 1, (4, 1), LossEnd::Dropped(8)),
            loss(0, 1, (5, 2), LossEnd::Dropped(10)),
            loss(0, 2, (5, 1), LossEnd::Told(7)),
            loss(0, 2, (9, 1), LossEnd::Open),
        ],
    ),
];

/// Returns the losses of a run.
fn found_in<V: Copy>(run: Run<V>) -> proved::Vec<Loss> {
    let losses = losses_of(Global, &run);
    losses.unwrap()
}

/// Asserts that the run of a script has these losses.
fn is_found((name, script, told): &Row) {
    let losses = found_in(run_of(script));
    assert_eq!(losses.as_slice(), *told, "{name}");
}

#[test]
fn losses_are_found() {
    for row in &ROWS {
        is_found(row);
    }
}
