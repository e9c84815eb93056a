//! The peaks of runs by stretches of places.

use crate::findings::stretches;
use crate::texts::rows::{OVERRUN, run_of};
use proved::Global;
use proved::rw_findings::{Measure, Peaks, Stretches, peaks_of};
use proved::rw_journal::Run;

/// A run's peaks: what it is about, its script, what is measured in which stretches, and the peaks of receiver 1 of channel 0.
struct Peaked {
    name: &'static str,
    script: &'static [u8],
    measure: Measure,
    stretches: Stretches,
    peaks: &'static [u64],
}

/// Receiver 1 of the first script lags by 1 at place 3 alone. It has 0, 1, 2, 3, 2, 1, 0 and 0 values to receive at its places.
static ROWS: [Peaked; 6] = [
    Peaked {
        name: "lag_in_halves",
        script: OVERRUN,
        measure: Measure::Lag,
        stretches: stretches(0, 2, 4),
        peaks: &[0, 1, 0, 0],
    },
    Peaked {
        name: "unread",
        script: OVERRUN,
        measure: Measure::Unread,
        stretches: stretches(0, 2, 4),
        peaks: &[1, 3, 2, 0],
    },
    Peaked {
        name: "past_the_last_place",
        script: OVERRUN,
        measure: Measure::Unread,
        stretches: stretches(1, 3, 4),
        peaks: &[3, 2, 0, 0],
    },
    Peaked {
        name: "from_the_last_place",
        script: OVERRUN,
        measure: Measure::Lag,
        stretches: stretches(8, 1, 1),
        peaks: &[0],
    },
    Peaked {
        name: "dropped_while_it_lags",
        script: b"broadcast 1\n0 0 send 0 1\n0 0 send 0 2\n0 0 send 0 3\n0 0 drop 1\n",
        measure: Measure::Lag,
        stretches: stretches(0, 5, 1),
        peaks: &[2],
    },
    Peaked {
        name: "unseen",
        script: b"watch 5\n0 0 send 0 6\n0 0 changed 1\n0 0 send 0 7\n0 0 drop 1\n",
        measure: Measure::Unseen,
        stretches: stretches(0, 1, 5),
        peaks: &[0, 1, 0, 1, 0],
    },
];

/// Returns the peaks of a run's channel 0.
fn found_in<V: Copy>(run: Run<V>, measure: Measure, stretches: Stretches) -> Peaks {
    let peaks = peaks_of(Global, &run, 0, measure, stretches);
    peaks.unwrap()
}

/// Returns the peak of receiver 1 in a stretch, or 0.
fn peak_in(peaks: &Peaks, stretch: usize) -> u64 {
    *peaks.row(1).get(stretch).unwrap_or(&0)
}

/// Asserts that receiver 1 has the peaks of a row, with those that are 0.
fn has_peaks(peaks: &Peaks, row: &Peaked) {
    let count = row.peaks.len() as u64;
    assert_eq!(row.stretches.count, count, "{}", row.name);
    for (i, peak) in row.peaks.iter().enumerate() {
        assert_eq!(peak_in(peaks, i), *peak, "{}", row.name);
    }
}

/// Asserts that the run of a row's script has its peaks.
fn are_found(row: &Peaked) {
    let run = run_of(row.script);
    let peaks = found_in(run, row.measure, row.stretches);
    has_peaks(&peaks, row);
}

#[test]
fn peaks_are_found() {
    for row in &ROWS {
        are_found(row);
    }
}
