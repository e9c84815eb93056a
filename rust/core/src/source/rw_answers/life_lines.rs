//! The lives of a run's handles as text.
// From crates/rw_answers/src/life_lines.rt, with its contracts as comments. //+
use crate::shim::Vec; //+

//~ ghost use Rattle.std.specs.Prelude.{◌≡◌, ◌++◌, OnOk, length};
//~ ghost use Rattle.rw_answers.specs.LifeLines.{IsLifeText, caller_words, callers_words, kind_word, life_line, life_lines};
//~ ghost use Rattle.rw_answers.specs.Texts.{Appended, AreTexts};

use crate::source::rw_answers::lines::{push_number_or_dash, push_with_number};
use crate::source::rw_findings::{Life, lives_of};
use crate::source::rw_handles::Kind;
use crate::source::rw_journal::Run;
use crate::source::rw_law::NoMemory;
use crate::shim::alloc::{AllocError, Global};

fn kind_word(kind: Kind) -> &'static [u8]
//~     ensures { result.now ≡ kind_word kind }
{
    match kind {
        Kind::Sender => b" sender",
        Kind::Receiver => b" receiver",
        Kind::Weak => b" weak-sender",
    }
}

/// Appends an actor and how many calls it made, if it made any.
fn push_caller(out: &mut Vec<u8>, actor: u64, calls: u64) -> Result<(), AllocError>
//~     ensures { OnOk result (out.new.items ≡ out.old.items ++ caller_words actor calls) }
{
    if 0 < calls {
        push_with_number(out, b" ", actor)?;
        push_with_number(out, b" ", calls)?;
    }
    Ok(())
}

/// Appends all actors that made calls.
fn push_callers(out: &mut Vec<u8>, calls: &[u64]) -> Result<(), AllocError>
//~     ensures { OnOk result (out.new.items ≡ out.old.items ++ callers_words calls.now (length calls.now)) }
{
    'each_actor: for actor in 0..calls.len() {
        push_caller(out, actor as u64, calls[actor])?;
    }
    Ok(())
}

/// Appends the line of a handle.
//~ #[tactic(auto, unfolding(crate::specs::LifeLines::life_line))]
fn push_life(out: &mut Vec<u8>, channel: u64, handle: u64, life: &Life) -> Result<(), AllocError>
//~     ensures { OnOk result (out.new.items ≡ out.old.items ++ life_line channel handle life.now) }
{
    push_with_number(out, b"handle ", channel)?;
    push_with_number(out, b" ", handle)?;
    out.extend_from_slice(kind_word(life.kind()))?;
    push_with_number(out, b" ", life.made())?;
    push_number_or_dash(out, life.maker().map(u64::from))?;
    push_number_or_dash(out, life.dropped())?;
    push_callers(out, life.calls())?;
    out.extend_from_slice(b"\n")
}

/// Appends a line for each handle of a channel.
fn push_lives(out: &mut Vec<u8>, channel: u64, lives: &[Life]) -> Result<(), AllocError>
//~     ensures { OnOk result (out.new.items ≡ out.old.items ++ life_lines channel lives.now (length lives.now)) }
{
    'each_handle: for handle in 0..lives.len() {
        push_life(out, channel, handle as u64, &lives[handle])?;
    }
    Ok(())
}

/// Appends the lives of the handles of a channel.
fn push_channel(
    alloc: Global,
    out: &mut Vec<u8>,
    run: &Run<u64>,
    channel: u32,
) -> Result<(), NoMemory>
//~     ensures { OnOk result (Appended out.old.items out.new.items (IsLifeText run.now channel)) }
{
    let lives = lives_of(alloc, run, channel)?;
    push_lives(out, u64::from(channel), &lives)?;
    Ok(())
}

/// Appends the lives of the handles of all channels of a run.
pub fn push_lives_of(alloc: Global, out: &mut Vec<u8>, run: &Run<u64>) -> Result<(), NoMemory>
//~     ensures { OnOk result (Appended out.old.items out.new.items (AreTexts (IsLifeText run.now) (length run.now.specs))) }
{
    'each_channel: for channel in 0..run.specs().len() {
        push_channel(alloc, out, run, channel as u32)?;
    }
    Ok(())
}
