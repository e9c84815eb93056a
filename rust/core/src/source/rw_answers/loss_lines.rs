//! The losses of a run as text.
// From crates/rw_answers/src/loss_lines.rt, with its contracts as comments. //+
use crate::shim::Vec; //+

//~ ghost use Rattle.std.specs.Prelude.{◌≡◌, ◌++◌, IfOk, OnOk};
//~ ghost use Rattle.std.specs.List.{flat_map};
//~ ghost use Rattle.rw_answers.specs.LossLines.{IsLossText, end_words, loss_line};

use crate::source::rw_answers::lines::push_with_number;
use crate::source::rw_findings::{Loss, LossEnd, losses_of};
use crate::source::rw_journal::Run;
use crate::source::rw_law::NoMemory;
use crate::shim::alloc::{AllocError, Global};

/// Appends how a loss ended.
fn push_end(out: &mut Vec<u8>, end: LossEnd) -> Result<(), AllocError>
//~     ensures { OnOk result (out.new.items ≡ out.old.items ++ end_words end) }
{
    match end {
        LossEnd::Told(place) => push_with_number(out, b" told ", place),
        LossEnd::Dropped(place) => push_with_number(out, b" dropped ", place),
        LossEnd::Open => out.extend_from_slice(b" open"),
    }
}

/// Appends the line of a loss.
//~ #[tactic(auto, unfolding(crate::specs::LossLines::loss_line))]
fn push_loss(out: &mut Vec<u8>, loss: &Loss) -> Result<(), AllocError>
//~     ensures { OnOk result (out.new.items ≡ out.old.items ++ loss_line loss.now) }
{
    push_with_number(out, b"loss ", u64::from(loss.channel))?;
    push_with_number(out, b" ", u64::from(loss.receiver))?;
    push_with_number(out, b" ", loss.from)?;
    push_with_number(out, b" ", loss.lost)?;
    push_end(out, loss.end)?;
    out.extend_from_slice(b"\n")
}

/// Appends a line for each loss.
fn push_losses(out: &mut Vec<u8>, losses: &[Loss]) -> Result<(), AllocError>
//~     ensures { OnOk result (out.new.items ≡ out.old.items ++ flat_map loss_line losses.now) }
{
    for loss in losses {
        push_loss(out, loss)?;
    }
    Ok(())
}

/// Returns a line for each loss of a run.
//~ #[tactic(auto, unfolding(crate::specs::LossLines::IsLossText))]
pub fn losses_text(alloc: Global, run: &Run<u64>) -> Result<Vec<u8>, NoMemory>
//~     ensures { IfOk result (λ text. IsLossText run.now text.items) }
{
    let losses = losses_of(alloc, run)?;
    let mut text = Vec::new(alloc);
    push_losses(&mut text, &losses)?;
    Ok(text)
}
