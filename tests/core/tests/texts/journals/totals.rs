//! The totals of runs.

use crate::findings::{of_broadcast, of_watch};
use crate::texts::rows::{OVERRUN, run_of};
use proved::Global;
use proved::rw_findings::{Totals, last_receipts_of, totals_of};
use proved::rw_journal::Run;

/// What a script is about, its lines, and the totals of its run.
type Row = (&'static str, &'static [u8], &'static [Totals]);

static ROWS: [Row; 12] = [
    (
        "told_once",
        OVERRUN,
        &[of_broadcast(0, 1, [2, 1, 1, 1, 3], Some(0))],
    ),
    (
        "empty_tells_nobody",
        b"broadcast 4\n0 0 try-recv 1\n0 0 send 0 1\n0 0 send 0 2\n0 0 try-recv 1\n",
        &[of_broadcast(0, 1, [1, 0, 0, 0, 0], Some(1))],
    ),
    (
        "dropped_while_it_lags",
        b"broadcast 1\n0 0 send 0 1\n0 0 send 0 2\n0 0 send 0 3\n0 0 drop 1\n0 0 subscribe 0\n",
        &[
            of_broadcast(0, 1, [0, 0, 2, 2, 3], None),
            of_broadcast(0, 2, [0, 0, 0, 0, 0], Some(0)),
        ],
    ),
    (
        "the_first_of_two_equal_lags",
        b"broadcast 1\n0 0 send 0 1\n0 0 send 0 2\n0 0 try-recv 1\n0 0 send 0 3\n0 0 try-recv 1\n0 0 try-recv 1\n",
        &[of_broadcast(0, 1, [1, 2, 2, 1, 2], Some(0))],
    ),
    (
        "lags_at_the_end",
        b"broadcast 2\n0 0 send 0 1\n0 0 send 0 2\n0 0 send 0 3\n0 0 send 0 4\n0 0 send 0 5\n0 0 receiver-len 1\n",
        &[of_broadcast(0, 1, [0, 0, 3, 3, 5], Some(5))],
    ),
    (
        "changes_between_looks",
        b"watch 4\n0 0 send 0 5\n0 0 send 0 6\n0 0 changed 1\n0 0 send 0 7\n0 0 update 1\n0 0 send 0 8\n0 0 send 0 9\n",
        &[of_watch(0, 1, [1, 3, 4])],
    ),
    (
        "told_twice",
        b"watch 4\n0 0 send 0 5\n0 0 changed 1\n0 0 mark-changed 1\n0 0 changed 1\n0 0 send 0 6\n0 0 clone-receiver 1\n0 0 drop 1\n0 0 send 0 7\n0 0 send 0 8\n",
        &[
            of_watch(0, 1, [2, 1, 2]),
            of_watch(0, 2, [0, 2, 2]),
        ],
    ),
    (
        "looks_by_borrow",
        b"watch 4\n0 0 send 0 5\n0 0 borrow 1\n0 0 send 0 6\n0 0 borrow 1\n0 0 borrow 1\n0 0 send 0 7\n0 0 borrow 1\n",
        &[of_watch(0, 1, [0, 3, 0])],
    ),
    (
        "told_without_a_look",
        b"watch 4\n0 0 send 0 5\n0 0 changed 1\n0 0 send 0 6\n0 0 changed 1\n",
        &[of_watch(0, 1, [2, 0, 2])],
    ),
    (
        "looks_and_marks",
        b"watch 4\n0 0 send 0 5\n0 0 update 1\n0 0 send 0 6\n0 0 borrow 1\n0 0 send 0 7\n0 0 changed 1\n0 0 send 0 8\n0 0 mark-unchanged 1\n0 0 update 1\n0 0 send 0 9\n0 0 borrow 0\n0 0 send 0 10\n0 0 borrow 1\n",
        &[of_watch(0, 1, [1, 3, 2])],
    ),
    (
        "looks_of_late_receivers",
        b"watch 4\n0 0 send 0 5\n0 0 subscribe 0\n0 0 borrow 2\n0 0 send 0 6\n0 0 clone-receiver 2\n0 0 send 0 7\n0 0 borrow 3\n0 0 drop 2\n0 0 borrow 2\n0 0 send 0 8\n0 0 drop 3\n",
        &[
            of_watch(0, 1, [0, 4, 4]),
            of_watch(0, 2, [0, 2, 2]),
            of_watch(0, 3, [0, 2, 1]),
        ],
    ),
    (
        "two_channels",
        b"broadcast 1\nwatch 4\n0 1 send 0 5\n0 0 send 0 1\n0 0 send 0 2\n0 1 changed 1\n",
        &[
            of_broadcast(0, 1, [0, 0, 1, 1, 3], Some(2)),
            of_watch(1, 1, [1, 0, 1]),
        ],
    ),
];

/// Returns the totals of a run.
fn totals_in<V: Copy>(run: Run<V>) -> proved::Vec<Totals> {
    let totals = totals_of(Global, &run);
    totals.unwrap()
}

/// Asserts that the run of a script has these totals.
fn are_counted((name, script, told): &Row) {
    let totals = totals_in(run_of(script));
    assert_eq!(totals.as_slice(), *told, "{name}");
}

#[test]
fn totals_are_counted() {
    for row in &ROWS {
        are_counted(row);
    }
}

/// What a receiver of a watch does, and where it was last given a value. Of its calls `borrow` and `update` give it one.
static RECEIPTS: [(&[u8], u64); 4] = [
    (b"watch 4\n0 0 borrow 1\n0 0 send 0 5\n0 0 changed 1\n", 1),
    (
        b"watch 4\n0 0 send 0 5\n0 0 update 1\n0 0 has-changed 1\n",
        2,
    ),
    (b"watch 4\n0 0 send 0 5\n0 0 changed 1\n", 0),
    (
        b"broadcast 2\n0 0 send 0 5\n0 0 try-recv 1\n0 0 try-recv 1\n",
        2,
    ),
];

#[test]
fn a_receiver_was_last_given_a_value_where_a_call_returned_one() {
    for (script, place) in &RECEIPTS {
        let run = run_of(script);
        let totals = totals_of(Global, &run).unwrap();
        let receipts = last_receipts_of(Global, &run, &totals).unwrap();
        assert_eq!(receipts.as_slice(), [*place]);
    }
}
