//! The pass over a run that finds the peaks of a channel's receivers.
//!
//! From one place to the next, the measure of a receiver falls only by a call that names it. So within a stretch the greatest
//! is reached before such a call, or at the last place.
// From crates/rw_findings/src/peaks/finding.rt, with its contracts as comments. //+

//~ ghost use Rattle.std.specs.Prelude.{◌≡◌, ◌≢◌, ℕ, ◌+◌, ◌-◌, ◌^◌, ◌<◌, ◌≤◌, min, IfOk, OnOk, length};
//~ ghost use Rattle.rw_findings.specs.Following.{Stands};
//~ ghost use Rattle.rw_findings.specs.Peaks.{ArePeaks, IsGreatest, Raised, measured_at, measured_of, named_level, peak_in};
//~ ghost use Rattle.rw_navigator.specs.Places.{last_place};

use super::measure::{Measure, Stretches};
use super::rows::Peaks;
use crate::source::rw_findings::following::{advance, advance_to, advance_within, opened};
use crate::source::rw_findings::handles::made;
use crate::source::rw_journal::Run;
use crate::source::rw_law::{NoMemory, Reversible};
use crate::source::rw_world::{Chan, ChanCall, RowCall, documented};
use crate::shim::alloc::Global;

/// The channel whose receivers are measured, and what is measured.
#[derive(Clone, Copy)]
struct Asked {
    channel: u32,
    measure: Measure,
}

/// Finds the greatest lags, or what else is measured, of a channel's receivers in each stretch of places.
///
/// It passes once over the entries, and reads each receiver once a stretch. Besides the peaks it needs a channel's memory.
pub fn peaks_of<V: Copy>(
    alloc: Global,
    run: &Run<V>,
    channel: u32,
    measure: Measure,
    stretches: Stretches,
) -> Result<Peaks, NoMemory>
//~     ensures { IfOk result (λ peaks. ArePeaks run.now channel measure stretches peaks) }
{
    documented::<V>();
    let mut peaks = Peaks::new(alloc);
    if run.specs().len() <= channel as usize {
        return Ok(peaks);
    }
    if stretches.each == 0 {
        return Ok(peaks);
    }
    if run.len() < stretches.from {
        return Ok(peaks);
    }
    let asked = Asked { channel, measure };
    follow_run(alloc, asked, run, stretches, &mut peaks)?;
    Ok(peaks)
}

/// Raises the peaks in each stretch, with a machine of the channel.
fn follow_run<V: Copy>(
    alloc: Global,
    asked: Asked,
    run: &Run<V>,
    stretches: Stretches,
    peaks: &mut Peaks,
) -> Result<(), NoMemory>
//~     requires channel { asked.channel < length run.now.specs }
//~     requires inside { stretches.from ≤ last_place run.now }
//~     requires some { 0 < stretches.each }
//~     requires fresh { (receiver stretch : ℕ) → peak_in peaks.old receiver stretch ≡ 0 }
//~     ensures { OnOk result (ArePeaks run.now asked.channel asked.measure stretches peaks.new) }
{
    let mut machine = opened(alloc, run, asked.channel)?;
    advance_to(&mut machine, run, asked.channel, stretches.from);
    follow_all(alloc, asked, run, &mut machine, stretches, peaks)
}

/// Raises the peaks in each stretch. The machine is at the place where the first begins.
fn follow_all<V: Copy>(
    alloc: Global,
    asked: Asked,
    run: &Run<V>,
    machine: &mut Chan<V>,
    stretches: Stretches,
    peaks: &mut Peaks,
) -> Result<(), NoMemory>
//~     requires here { Stands run.now asked.channel machine.old stretches.from }
//~     requires inside { stretches.from ≤ last_place run.now }
//~     requires some { 0 < stretches.each }
//~     requires fresh { (receiver stretch : ℕ) → peak_in peaks.old receiver stretch ≡ 0 }
//~     ensures { OnOk result (ArePeaks run.now asked.channel asked.measure stretches peaks.new) }
{
    // The proof needs this call: it bounds the number of entries.
    let _entries = run.entries();
    let last = run.len();
    let mut start = stretches.from;
    'each_stretch: for stretch in 0..stretches.count {
        if last < start {
            return Ok(());
        }
        let end = end_of(start, stretches.each, last);
        follow(
            alloc,
            asked,
            run,
            machine,
            start,
            end,
            stretch as usize,
            peaks,
        )?;
        advance_within(machine, run, asked.channel, end - 1);
        start = end;
    }
    Ok(())
}

/// Returns the place after a stretch, which is cut at the last place.
fn end_of(start: u64, each: u64, last: u64) -> u64
//~     requires { last < 2 ^ 62 }
//~     ensures { result ≡ min (start + each) (last + 1) }
{
    start.saturating_add(each).min(last + 1)
}

/// Raises the peaks in a stretch, from the machine's place up to another. The machine goes to the last place of the stretch.
fn follow<V: Copy>(
    alloc: Global,
    asked: Asked,
    run: &Run<V>,
    machine: &mut Chan<V>,
    from: u64,
    to: u64,
    stretch: usize,
    peaks: &mut Peaks,
) -> Result<(), NoMemory>
//~     requires here { Stands run.now asked.channel machine.old from }
//~     requires some { from < to }
//~     requires inside { to ≤ last_place run.now + 1 }
//~     requires fresh { (receiver : ℕ) → peak_in peaks.old receiver stretch ≡ 0 }
//~     ensures stands { OnOk result (Stands run.now asked.channel machine.new (to - 1)) }
//~     ensures peaks { OnOk result ((receiver : ℕ) → IsGreatest (measured_at asked.measure run.now asked.channel receiver)
//~         (last_place run.now) from to (peak_in peaks.new receiver stretch)) }
//~     ensures others { OnOk result ((receiver other : ℕ) → other ≢ stretch → peak_in peaks.new receiver other ≡ peak_in peaks.old receiver other) }
{
    documented::<V>();
    'each_place: for place in from..to - 1 {
        let entry = &run.entries()[place as usize];
        raise_named(alloc, asked, &entry.call, machine, stretch, peaks)?;
        advance(machine, run, asked.channel, place);
    }
    raise_all(alloc, asked.measure, machine, stretch, peaks)?;
    Ok(())
}

/// Raises the peak of the receiver that a call names, if it is on the channel.
fn raise_named<V: Copy>(
    alloc: Global,
    asked: Asked,
    call: &RowCall<ChanCall<V>>,
    machine: &Chan<V>,
    stretch: usize,
    peaks: &mut Peaks,
) -> Result<(), NoMemory>
//~     ensures { OnOk result (Raised peaks.old peaks.new stretch
//~         (named_level asked.measure asked.channel (⟦<Chan<V> as Reversible>⟧.shown machine.now) call.now)) }
{
    if call.channel != asked.channel {
        return Ok(());
    }
    let receiver = call.call.handle();
    let level = asked.measure.of(machine, receiver);
    peaks.raise(alloc, receiver as usize, stretch, level)
}

/// Raises the peaks of all receivers.
fn raise_all<V: Copy>(
    alloc: Global,
    measure: Measure,
    machine: &Chan<V>,
    stretch: usize,
    peaks: &mut Peaks,
) -> Result<(), NoMemory>
//~     ensures { OnOk result (Raised peaks.old peaks.new stretch (measured_of measure (⟦<Chan<V> as Reversible>⟧.shown machine.now))) }
{
    'each_receiver: for receiver in 0..made(machine) {
        peaks.raise(
            alloc,
            receiver as usize,
            stretch,
            measure.of(machine, receiver),
        )?;
    }
    Ok(())
}
