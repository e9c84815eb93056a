//! The values of a channel as text.
// From crates/rw_answers/src/value_lines.rt, with its contracts as comments. //+
use crate::shim::Vec; //+

//~ ghost use Rattle.std.specs.Prelude.{◌≡◌, ◌++◌, OnOk, length};
//~ ghost use Rattle.rw_answers.specs.Texts.{Appended, AreTexts};
//~ ghost use Rattle.rw_answers.specs.ValueLines.{IsValueText, value_line, value_lines};

use crate::source::rw_answers::lines::{push_number_or_dash, push_with_number};
use crate::source::rw_findings::{ChannelValue, values_of};
use crate::source::rw_journal::Run;
use crate::source::rw_law::NoMemory;
use crate::shim::alloc::{AllocError, Global};

/// Appends the line of a value.
//~ #[tactic(auto, unfolding(crate::specs::ValueLines::value_line))]
fn push_value(
    out: &mut Vec<u8>,
    channel: u32,
    number: u64,
    value: &ChannelValue<u64>,
) -> Result<(), AllocError>
//~     ensures { OnOk result (out.new.items ≡ out.old.items ++ value_line channel number value.now) }
{
    push_with_number(out, b"value ", u64::from(channel))?;
    push_with_number(out, b" ", number)?;
    push_with_number(out, b" ", value.value)?;
    push_with_number(out, b" ", value.since)?;
    push_number_or_dash(out, value.overwritten)?;
    out.extend_from_slice(b"\n")
}

/// Appends a line for each value.
fn push_values(
    out: &mut Vec<u8>,
    channel: u32,
    values: &[ChannelValue<u64>],
) -> Result<(), AllocError>
//~     ensures { OnOk result (out.new.items ≡ out.old.items ++ value_lines channel values.now (length values.now)) }
{
    'each_value: for number in 0..values.len() {
        push_value(out, channel, number as u64, &values[number])?;
    }
    Ok(())
}

/// Appends the values of a channel.
fn push_channel(
    alloc: Global,
    out: &mut Vec<u8>,
    run: &Run<u64>,
    channel: u32,
) -> Result<(), NoMemory>
//~     ensures { OnOk result (Appended out.old.items out.new.items (IsValueText run.now channel)) }
{
    let values = values_of(alloc, run, channel)?;
    push_values(out, channel, &values)?;
    Ok(())
}

/// Appends the values of all channels of a run.
pub fn push_values_of(alloc: Global, out: &mut Vec<u8>, run: &Run<u64>) -> Result<(), NoMemory>
//~     ensures { OnOk result (Appended out.old.items out.new.items (AreTexts (IsValueText run.now) (length run.now.specs))) }
{
    'each_channel: for channel in 0..run.specs().len() {
        push_channel(alloc, out, run, channel as u32)?;
    }
    Ok(())
}
