//! The totals of a run as text.
// From crates/rw_answers/src/total_lines.rt, with its contracts as comments. //+
use crate::shim::Vec; //+

//~ ghost use Rattle.std.specs.Prelude.{◌≡◌, ◌++◌, OnOk};
//~ ghost use Rattle.std.specs.List.{flat_map};
//~ ghost use Rattle.rw_answers.specs.Texts.{Appended};
//~ ghost use Rattle.rw_answers.specs.TotalLines.{IsTotalText, broadcast_line, receiver_words, totals_line, watch_line};

use crate::source::rw_answers::lines::{push_number_or_dash, push_with_number};
use crate::source::rw_findings::{BroadcastCounts, Counts, Totals, WatchCounts, totals_of};
use crate::source::rw_journal::Run;
use crate::source::rw_law::NoMemory;
use crate::shim::alloc::{AllocError, Global};

/// Appends a receiver, with the kind of its channel.
fn push_receiver(
    out: &mut Vec<u8>,
    kind: &[u8],
    channel: u32,
    receiver: u32,
) -> Result<(), AllocError>
//~     ensures { OnOk result (out.new.items ≡ out.old.items ++ receiver_words kind.now channel receiver) }
{
    push_with_number(out, kind, u64::from(channel))?;
    push_with_number(out, b" ", u64::from(receiver))
}

/// Appends the line of a broadcast's receiver.
//~ #[tactic(auto, unfolding(crate::specs::TotalLines::broadcast_line))]
fn push_broadcast(
    out: &mut Vec<u8>,
    channel: u32,
    receiver: u32,
    counts: BroadcastCounts,
) -> Result<(), AllocError>
//~     ensures { OnOk result (out.new.items ≡ out.old.items ++ broadcast_line channel receiver counts) }
{
    push_receiver(out, b"broadcast ", channel, receiver)?;
    push_with_number(out, b" ", counts.received)?;
    push_with_number(out, b" ", counts.told)?;
    push_with_number(out, b" ", counts.lost)?;
    push_with_number(out, b" ", counts.worst)?;
    push_with_number(out, b" ", counts.worst_place)?;
    push_number_or_dash(out, counts.unread)?;
    out.extend_from_slice(b"\n")
}

/// Appends the line of a watch's receiver.
//~ #[tactic(auto, unfolding(crate::specs::TotalLines::watch_line))]
fn push_watch(
    out: &mut Vec<u8>,
    channel: u32,
    receiver: u32,
    counts: WatchCounts,
) -> Result<(), AllocError>
//~     ensures { OnOk result (out.new.items ≡ out.old.items ++ watch_line channel receiver counts) }
{
    push_receiver(out, b"watch ", channel, receiver)?;
    push_with_number(out, b" ", counts.changes)?;
    push_with_number(out, b" ", counts.missed)?;
    push_with_number(out, b" ", counts.unlooked)?;
    out.extend_from_slice(b"\n")
}

/// Appends the line of a receiver.
fn push_one(out: &mut Vec<u8>, totals: &Totals) -> Result<(), AllocError>
//~     ensures { OnOk result (out.new.items ≡ out.old.items ++ totals_line totals.now) }
{
    match totals.counts {
        Counts::Broadcast(counts) => push_broadcast(out, totals.channel, totals.receiver, counts),
        Counts::Watch(counts) => push_watch(out, totals.channel, totals.receiver, counts),
    }
}

/// Appends a line for each receiver.
fn push_totals(out: &mut Vec<u8>, totals: &[Totals]) -> Result<(), AllocError>
//~     ensures { OnOk result (out.new.items ≡ out.old.items ++ flat_map totals_line totals.now) }
{
    for one in totals {
        push_one(out, one)?;
    }
    Ok(())
}

/// Appends a line for each receiver of a run with its totals.
pub fn push_totals_of(alloc: Global, out: &mut Vec<u8>, run: &Run<u64>) -> Result<(), NoMemory>
//~     ensures { OnOk result (Appended out.old.items out.new.items (IsTotalText run.now)) }
{
    let totals = totals_of(alloc, run)?;
    push_totals(out, &totals)?;
    Ok(())
}
