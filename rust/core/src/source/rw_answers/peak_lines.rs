//! The peaks of a run as text.
// From crates/rw_answers/src/peak_lines.rt, with its contracts as comments. //+
use crate::shim::Vec; //+

//~ ghost use Rattle.std.specs.Prelude.{◌≡◌, ◌++◌, IfOk, OnOk, nat_lt, length, slice_index_or};
//~ ghost use Rattle.std.specs.List.{list_any};
//~ ghost use Rattle.rw_answers.specs.PeakLines.{AreChannelTexts, IsChannelText, IsMeasureText};
//~ ghost use Rattle.rw_answers.specs.PeakLines.{measure_word, peak_numbers, row_line, shown_row, shown_rows};
//~ ghost use Rattle.rw_answers.specs.Texts.{Appended};

use crate::source::rw_answers::lines::push_with_number;
use crate::source::rw_findings::{Measure, Peaks, Stretches, peaks_of};
use crate::source::rw_journal::Run;
use crate::source::rw_law::NoMemory;
use crate::shim::alloc::{AllocError, Global};

fn measure_word(measure: Measure) -> &'static [u8]
//~     ensures { result.now ≡ measure_word measure }
{
    match measure {
        Measure::Lag => b"lag ",
        Measure::Unread => b"unread ",
        Measure::Unseen => b"unseen ",
    }
}

/// Returns the peak in a stretch.
fn peak(row: &[u64], stretch: u64) -> u64
//~     ensures { result ≡ slice_index_or row.now stretch 0 }
{
    match row.get(/*+*/crate::shim::saturated(/*+*/stretch /*+*/)/*+*//*~as usize~*/) {
        Some(peak) => *peak,
        None => 0,
    }
}

/// Appends the peaks of a row in this many stretches.
fn push_peaks(out: &mut Vec<u8>, count: u64, row: &[u64]) -> Result<(), AllocError>
//~     ensures { OnOk result (out.new.items ≡ out.old.items ++ peak_numbers count row.now) }
{
    'each_stretch: for stretch in 0..count {
        push_with_number(out, b" ", peak(row, stretch))?;
    }
    Ok(())
}

/// Whether a peak isn't 0.
fn has_peak(row: &[u64]) -> bool
//~     ensures { result ≡ list_any (nat_lt 0) row.now }
{
    row.iter().any(|peak| 0 < *peak)
}

/// Appends the line of a receiver's row.
//~ #[tactic(auto, unfolding(crate::specs::PeakLines::row_line))]
fn push_line(
    out: &mut Vec<u8>,
    measure: Measure,
    channel: u64,
    count: u64,
    receiver: u64,
    row: &[u64],
) -> Result<(), AllocError>
//~     ensures { OnOk result (out.new.items ≡ out.old.items ++ row_line measure channel count receiver row.now) }
{
    push_with_number(out, measure_word(measure), channel)?;
    push_with_number(out, b" ", receiver)?;
    push_peaks(out, count, row)?;
    out.extend_from_slice(b"\n")
}

/// Appends the line of a receiver's row, unless its peaks are all 0.
fn push_row(
    out: &mut Vec<u8>,
    measure: Measure,
    channel: u64,
    count: u64,
    receiver: u64,
    row: &[u64],
) -> Result<(), AllocError>
//~     ensures { OnOk result (out.new.items ≡ out.old.items ++ shown_row measure channel count receiver row.now) }
{
    if has_peak(row) {
        push_line(out, measure, channel, count, receiver, row)
    } else {
        Ok(())
    }
}

/// Appends the rows of all receivers.
fn push_rows(
    out: &mut Vec<u8>,
    measure: Measure,
    channel: u64,
    count: u64,
    peaks: &Peaks,
) -> Result<(), AllocError>
//~     ensures { OnOk result (out.new.items ≡ out.old.items ++ shown_rows measure channel count peaks.now (length peaks.now)) }
{
    'each_receiver: for receiver in 0..peaks.len() {
        push_row(
            out,
            measure,
            channel,
            count,
            receiver as u64,
            peaks.row(receiver),
        )?;
    }
    Ok(())
}

/// Appends the peaks of one measure of a channel's receivers.
fn push_measure(
    alloc: Global,
    out: &mut Vec<u8>,
    run: &Run<u64>,
    stretches: Stretches,
    channel: u8,
    measure: Measure,
) -> Result<(), NoMemory>
//~     ensures { OnOk result (Appended out.old.items out.new.items (IsMeasureText run.now stretches channel measure)) }
{
    let peaks = peaks_of(alloc, run, u32::from(channel), measure, stretches)?;
    push_rows(out, measure, u64::from(channel), stretches.count, &peaks)?;
    Ok(())
}

/// Appends the peaks of a channel's receivers.
fn push_channel(
    alloc: Global,
    out: &mut Vec<u8>,
    run: &Run<u64>,
    stretches: Stretches,
    channel: u8,
) -> Result<(), NoMemory>
//~     ensures { OnOk result (Appended out.old.items out.new.items (IsChannelText run.now stretches channel)) }
{
    push_measure(alloc, out, run, stretches, channel, Measure::Lag)?;
    push_measure(alloc, out, run, stretches, channel, Measure::Unread)?;
    push_measure(alloc, out, run, stretches, channel, Measure::Unseen)?;
    Ok(())
}

/// Appends the peaks of the receivers of these channels.
fn push_channels(
    alloc: Global,
    out: &mut Vec<u8>,
    run: &Run<u64>,
    stretches: Stretches,
    channels: &[u8],
) -> Result<(), NoMemory>
//~     ensures { OnOk result (Appended out.old.items out.new.items (AreChannelTexts run.now stretches channels.now)) }
{
    'each_channel: for channel in channels {
        push_channel(alloc, out, run, stretches, *channel)?;
    }
    Ok(())
}

/// Returns the peaks of the receivers of these channels.
pub fn peaks_text(
    alloc: Global,
    run: &Run<u64>,
    stretches: Stretches,
    channels: &[u8],
) -> Result<Vec<u8>, NoMemory>
//~     ensures { IfOk result (λ text. AreChannelTexts run.now stretches channels.now text.items) }
{
    let mut text = Vec::new(alloc);
    push_channels(alloc, &mut text, run, stretches, channels)?;
    Ok(text)
}
