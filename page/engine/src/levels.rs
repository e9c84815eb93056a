//! How much receivers have yet to receive in stretches of places: what is drawn of a run from far.

use crate::part::{Part, word};
use crate::shim::alloc::Global;
use crate::source::rw_findings::{Measure, Stretches, peaks_of};
use crate::source::rw_law::NoMemory;
use yovanelum_record::journal::{Run, Spec};

/// The greatest number of stretches that are accepted: the page has at most 1,500.
pub(crate) const MOST_STRETCHES: u64 = 65_536;

/// Returns the receivers of these channels that have a level: of each its channel and number, how
/// many numbers follow, and of each of its longest spans of stretches with one level above 0 the
/// first stretch, the one after its last, and the level.
///
/// The level is how many values a receiver has yet to receive of those that are retained, and of a
/// watch 1 where it hasn't seen the value.
pub(crate) fn of(run: &Run, stretches: Stretches, channels: &[u8]) -> Result<Part, NoMemory> {
    let mut out = vec![];
    for channel in channels {
        let most = match run.specs().get(usize::from(*channel)) {
            Some(Spec::Broadcast(capacity)) => u64::from(capacity.next_power_of_two()),
            _ => u64::MAX,
        };
        for measure in [Measure::Unread, Measure::Unseen] {
            let peaks = peaks_of(Global, &run.0, u32::from(*channel), measure, stretches)?;
            for receiver in 0..peaks.len() {
                push_receiver(
                    &mut out,
                    [u32::from(*channel), receiver as u32],
                    peaks.row(receiver),
                    stretches.count,
                    most,
                );
            }
        }
    }
    Ok(out.into())
}

/// Appends a receiver, unless it has no level.
fn push_receiver(out: &mut Vec<u32>, receiver: [u32; 2], row: &[u64], count: u64, most: u64) {
    let start = out.len();
    out.extend(receiver);
    out.push(0);
    push_spans(out, row, count, most);
    let len = out.len() - start - 3;
    out[start + 2] = len as u32;
    if len == 0 {
        out.truncate(start);
    }
}

/// Appends the spans of a row with `count` stretches. Levels above `most` count as that.
fn push_spans(out: &mut Vec<u32>, row: &[u64], count: u64, most: u64) {
    let (mut first, mut level) = (0, 0);
    for stretch in 0..=count {
        let peak = row
            .get(stretch as usize)
            .copied()
            .filter(|_| stretch < count);
        let next = peak.unwrap_or(0).min(most);
        if next == level {
            continue;
        }
        if level > 0 {
            out.extend([word(first), word(stretch), word(level)]);
        }
        (first, level) = (stretch, next);
    }
}
