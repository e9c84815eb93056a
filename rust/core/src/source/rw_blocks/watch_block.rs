//! The lines that show a watch channel.
// From crates/rw_blocks/src/watch_block.rt, with its contracts as comments. //+
use crate::shim::Vec; //+

//~ ghost use Rattle.std.specs.Prelude.{◌≡◌, ◌++◌, OnOk, length, slice_get};
//~ ghost use Rattle.rw_watch.specs.Machine.{mark_at};
//~ ghost use Rattle.rw_blocks.specs.Handles.{senders_line};
//~ ghost use Rattle.rw_blocks.specs.WatchBlock.{channel_numbers, channel_line, mark_text, seen_or_unseen, receiver_line, receiver_lines, watch_block};

use crate::source::rw_blocks::handles::push_handle;
use crate::source::rw_blocks::labels::{open_or_closed, push_with_number};
use crate::source::rw_handles::Kind;
use crate::source::rw_lines::push_number;
use crate::source::rw_watch::Watch;
use crate::shim::alloc::AllocError;

/// Appends the lines of channel i.
pub fn push_watch(out: &mut Vec<u8>, i: u64, channel: &Watch<u64>) -> Result<(), AllocError>
//~     ensures { OnOk result (out.new.items ≡ out.old.items ++ watch_block i channel.now.shown) }
{
    push_summary(out, i, channel)?;
    push_senders(out, channel)?;
    push_receivers(out, channel)
}

//~ #[tactic(auto, unfolding(crate::specs::WatchBlock::channel_numbers))]
fn push_numbers(out: &mut Vec<u8>, i: u64, channel: &Watch<u64>) -> Result<(), AllocError>
//~     ensures { OnOk result (out.new.items ≡ out.old.items ++ channel_numbers i channel.now.shown) }
{
    push_with_number(out, b"channel ", i)?;
    push_with_number(out, b" watch version ", channel.version())?;
    push_with_number(out, b" value ", channel.value())?;
    push_with_number(out, b" made ", u64::from(channel.made()))
}

/// Appends the first line: the channel's numbers, and whether it is open.
//~ #[tactic(auto, unfolding(crate::specs::WatchBlock::channel_line))]
fn push_summary(out: &mut Vec<u8>, i: u64, channel: &Watch<u64>) -> Result<(), AllocError>
//~     ensures { OnOk result (out.new.items ≡ out.old.items ++ channel_line i channel.now.shown) }
{
    push_numbers(out, i, channel)?;
    out.extend_from_slice(open_or_closed(channel.closed()).as_bytes())
}

/// Appends the live senders.
//~ #[tactic(auto, using(crate::proofs::Written::by_number), unfolding(crate::specs::Handles::handles_line))]
fn push_senders(out: &mut Vec<u8>, channel: &Watch<u64>) -> Result<(), AllocError>
//~     ensures { OnOk result (out.new.items ≡ out.old.items ++ senders_line channel.now.shown.slots) }
{
    out.extend_from_slice(b"senders")?;
    'each_handle: for h in 0..channel.made() {
        push_handle(out, Kind::Sender, h, channel.kind(h))?;
    }
    out.extend_from_slice(b"\n")
}

fn push_mark(out: &mut Vec<u8>, mark: Option<u64>) -> Result<(), AllocError>
//~     ensures { OnOk result (out.new.items ≡ out.old.items ++ mark_text mark) }
{
    match mark {
        Some(version) => push_number(out, version),
        None => out.extend_from_slice(b"none"),
    }
}

fn seen_or_unseen(is_seen: bool) -> &'static str
//~     ensures { result.now ≡ seen_or_unseen is_seen }
{
    if is_seen { " seen\n" } else { " unseen\n" }
}

//~ #[tactic(auto, unfolding(crate::specs::WatchBlock::receiver_line))]
fn push_receiver(out: &mut Vec<u8>, channel: &Watch<u64>, h: u32) -> Result<(), AllocError>
//~     ensures { OnOk result (out.new.items ≡ out.old.items ++ receiver_line channel.now.shown h (mark_at (slice_get channel.now.shown.slots h))) }
{
    let Some(mark) = channel.mark(h) else {
        return Ok(());
    };
    push_with_number(out, b"receiver ", u64::from(h))?;
    out.extend_from_slice(b" mark ")?;
    push_mark(out, mark)?;
    out.extend_from_slice(seen_or_unseen(channel.is_seen(h).unwrap()).as_bytes())
}

/// Appends the live receivers, a line each.
//~ #[tactic(auto, using(crate::proofs::Written::by_number))]
fn push_receivers(out: &mut Vec<u8>, channel: &Watch<u64>) -> Result<(), AllocError>
//~     ensures { OnOk result (out.new.items ≡ out.old.items ++ receiver_lines channel.now.shown (length channel.now.shown.slots)) }
{
    'each_handle: for h in 0..channel.made() {
        push_receiver(out, channel, h)?;
    }
    Ok(())
}
