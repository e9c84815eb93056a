//! The values of channels.

use crate::texts::rows::run_of;
use proved::Global;
use proved::rw_findings::{ChannelValue, values_of};
use proved::rw_journal::Run;

/// A value, since when it is there, and where it was overwritten.
type Had = (u64, u64, Option<u64>);

/// What a script is about, its lines, and the values of its channel 0.
type Row = (&'static str, &'static [u8], &'static [Had]);

static ROWS: [Row; 5] = [
    (
        "the_third_send_overwrites_the_first",
        b"broadcast 2\n0 0 send 0 7\n0 0 send 0 8\n0 0 try-recv 1\n0 0 send 0 9\n",
        &[(7, 1, Some(4)), (8, 2, None), (9, 4, None)],
    ),
    (
        "three_are_as_four",
        b"broadcast 3\nwatch 1\n0 0 send 0 1\n0 0 send 0 2\n0 1 send 0 8\n0 0 send 0 3\n0 0 send 0 4\n0 0 send 0 5\n",
        &[
            (1, 1, Some(6)),
            (2, 2, None),
            (3, 4, None),
            (4, 5, None),
            (5, 6, None),
        ],
    ),
    (
        "a_refused_send_is_no_value",
        b"broadcast 1\n0 0 drop 1\n0 0 send 0 7\n0 0 subscribe 0\n0 0 send 0 8\n",
        &[(8, 4, None)],
    ),
    (
        "a_watch_opens_with_one",
        b"watch 4\n0 0 send 0 5\n0 0 send-replace 0 6\n",
        &[(4, 0, Some(1)), (5, 1, Some(2)), (6, 2, None)],
    ),
    (
        "a_silent_change_has_no_number",
        b"watch 4\n0 0 modify 0 5 no\n0 0 modify 0 6 yes\n",
        &[(4, 0, Some(2)), (6, 2, None)],
    ),
];

/// Returns the values of a run's channel 0.
fn found_in<V: Copy>(run: Run<V>) -> proved::Vec<ChannelValue<V>> {
    let values = values_of(Global, &run, 0);
    values.unwrap()
}

/// Asserts that these are the values.
fn are_had(name: &str, values: &[ChannelValue<u64>], told: &[Had]) {
    assert_eq!(values.len(), told.len(), "{name}");
    for (it, had) in values.iter().zip(told) {
        assert_eq!((it.value, it.since, it.overwritten), *had, "{name}");
    }
}

/// Asserts that channel 0 of the run of a script has these values.
fn are_found((name, script, told): &Row) {
    let values = found_in(run_of(script));
    are_had(name, &values, told);
}

#[test]
fn values_are_found() {
    for row in &ROWS {
        are_found(row);
    }
}
