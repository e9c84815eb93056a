//! The lines that show a broadcast channel.
// From crates/rw_blocks/src/broadcast_block.rt, with its contracts as comments. //+
use crate::shim::Vec; //+

//~ ghost use Rattle.std.specs.Prelude.{◌≡◌, ◌++◌, OnOk, length, slice_get};
//~ ghost use Rattle.rw_broadcast.specs.Machine.{position_at};
//~ ghost use Rattle.rw_blocks.specs.Handles.{handles_line, weak_line};
//~ ghost use Rattle.rw_blocks.specs.BroadcastBlock.{channel_numbers, channel_line, window_line, receiver_line, receiver_lines, broadcast_block};

use crate::source::rw_blocks::handles::push_handle;
use crate::source::rw_blocks::labels::{open_or_closed, push_with_number};
use crate::source::rw_broadcast::Broadcast;
use crate::source::rw_handles::Kind;
use crate::source::rw_law::Reversible;
use crate::shim::alloc::AllocError;

/// Appends the lines of channel i.
pub fn push_broadcast(out: &mut Vec<u8>, i: u64, channel: &Broadcast<u64>) -> Result<(), AllocError>
//~     ensures { OnOk result (out.new.items ≡ out.old.items ++ broadcast_block i channel.now.shown) }
{
    push_summary(out, i, channel)?;
    push_window(out, channel)?;
    push_handles(out, channel, b"senders", Kind::Sender)?;
    push_weak(out, channel)?;
    push_receivers(out, channel)
}

//~ #[tactic(auto, unfolding(crate::specs::BroadcastBlock::channel_numbers))]
fn push_numbers(out: &mut Vec<u8>, i: u64, channel: &Broadcast<u64>) -> Result<(), AllocError>
//~     ensures { OnOk result (out.new.items ≡ out.old.items ++ channel_numbers i channel.now.shown) }
{
    push_with_number(out, b"channel ", i)?;
    push_with_number(out, b" broadcast capacity ", channel.capacity())?;
    push_with_number(out, b" sent ", channel.sent())?;
    push_with_number(out, b" queued ", channel.queued())?;
    push_with_number(out, b" made ", u64::from(channel.made()))
}

/// Appends the first line: the channel's numbers, and whether it is open.
//~ #[tactic(auto, unfolding(crate::specs::BroadcastBlock::channel_line))]
fn push_summary(out: &mut Vec<u8>, i: u64, channel: &Broadcast<u64>) -> Result<(), AllocError>
//~     ensures { OnOk result (out.new.items ≡ out.old.items ++ channel_line i channel.now.shown) }
{
    push_numbers(out, i, channel)?;
    out.extend_from_slice(open_or_closed(channel.closed()).as_bytes())
}

/// Appends the retained values.
fn push_window(out: &mut Vec<u8>, channel: &Broadcast<u64>) -> Result<(), AllocError>
//~     ensures { OnOk result (out.new.items ≡ out.old.items ++ window_line channel.now.shown) }
{
    // The proof needs this call: it bounds their number.
    let _weight = channel.weight();
    out.extend_from_slice(b"window")?;
    let mut i = 0;
    'each_value: while let Some(value) = channel.window(i) {
        push_with_number(out, b" ", value)?;
        i += 1;
    }
    out.extend_from_slice(b"\n")
}

/// Appends a line of a word and the live handles of a kind.
//~ #[tactic(auto, using(crate::proofs::Written::by_number), unfolding(crate::specs::Handles::handles_line))]
fn push_handles(
    out: &mut Vec<u8>,
    channel: &Broadcast<u64>,
    word: &[u8],
    kind: Kind,
) -> Result<(), AllocError>
//~     ensures { OnOk result (out.new.items ≡ out.old.items ++ handles_line word.now kind channel.now.shown.slots) }
{
    out.extend_from_slice(word)?;
    'each_handle: for h in 0..channel.made() {
        push_handle(out, kind, h, channel.kind(h))?;
    }
    out.extend_from_slice(b"\n")
}

/// Appends the live weak senders, if there are any.
fn push_weak(out: &mut Vec<u8>, channel: &Broadcast<u64>) -> Result<(), AllocError>
//~     ensures { OnOk result (out.new.items ≡ out.old.items ++ weak_line channel.now.shown.slots) }
{
    if channel.alive(Kind::Weak) == 0 {
        return Ok(());
    }
    push_handles(out, channel, b"weak", Kind::Weak)
}

//~ #[tactic(auto, unfolding(crate::specs::BroadcastBlock::receiver_line))]
fn push_receiver(out: &mut Vec<u8>, channel: &Broadcast<u64>, h: u32) -> Result<(), AllocError>
//~     ensures { OnOk result (out.new.items ≡ out.old.items ++ receiver_line channel.now.shown h (position_at (slice_get channel.now.shown.slots h))) }
{
    let Some(position) = channel.position(h) else {
        return Ok(());
    };
    push_with_number(out, b"receiver ", u64::from(h))?;
    push_with_number(out, b" position ", position)?;
    push_with_number(out, b" unread ", channel.unread(h).unwrap())?;
    push_with_number(out, b" lag ", channel.lag(h).unwrap())?;
    out.extend_from_slice(b"\n")
}

/// Appends the live receivers, a line each.
//~ #[tactic(auto, using(crate::proofs::Written::by_number))]
fn push_receivers(out: &mut Vec<u8>, channel: &Broadcast<u64>) -> Result<(), AllocError>
//~     ensures { OnOk result (out.new.items ≡ out.old.items ++ receiver_lines channel.now.shown (length channel.now.shown.slots)) }
{
    'each_handle: for h in 0..channel.made() {
        push_receiver(out, channel, h)?;
    }
    Ok(())
}
