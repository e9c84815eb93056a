//! Compares the receipts of passes with the lines of a script.
// From crates/rw_script/src/following.rt, with its contracts as comments. //+
use crate::shim::Vec; //+

//~ ghost use Rattle.std.specs.Prelude.{◌≡◌, OnOk, IfSome, IsTrue};
//~ ghost use Rattle.rw_world.specs.Lists.{Each};
//~ ghost use Rattle.rw_script.specs.Running.{call_of};
//~ ghost use Rattle.rw_script.specs.Threads.{IsFollowed, Moves, call_kept};

use crate::source::rw_script::running::{NEVER_MADE, filled, made_by, push_handle};
use crate::source::rw_script::steps::ScriptStep;
use crate::source::rw_script::threads::RunFault;
use crate::source::rw_desk::{Kept, Pass};
use crate::shim::alloc::Global;

/// Whether a receipt is for the call of a step.
fn is_call(receipt: &Kept<u64>, step: &ScriptStep, made: &[u32]) -> bool
//~     ensures { IsTrue result → call_kept receipt.now ≡ (call_of step.now made.now).1 }
{
    receipt.channel == step.channel && receipt.call == filled(step, made)
}

/// Moves past a step, and past its receipt if the step is the actor's. Returns the number of the next receipt, and the handle
/// that the call made, or `None` if the receipt isn't for the call. `made` has the handles of the names so far.
fn moved(pass: &Pass<u64>, number: usize, step: &ScriptStep, made: &[u32]) -> Option<(usize, u32)>
//~     ensures { IfSome result (λ to. Moves pass.now number step.now made.now to) }
{
    if step.actor != pass.actor() {
        return Some((number, NEVER_MADE));
    }
    let receipt = pass.kept().get(number)?;
    if is_call(receipt, step, made) {
        Some((number + 1, made_by(&receipt.reply)))
    } else {
        None
    }
}

/// Returns an error unless the receipts of a pass are those of all its actor's lines, in order.
fn follow(alloc: Global, steps: &[ScriptStep], pass: &Pass<u64>) -> Result<(), RunFault>
//~     ensures { OnOk result (IsFollowed steps.now pass.now) }
{
    let mut made = Vec::new(alloc);
    let mut number = 0;
    'each_step: for step in steps {
        let (next, handle) = moved(pass, number, step, &made).ok_or(RunFault::Strayed)?;
        push_handle(&mut made, step.binds, handle)?;
        number = next;
    }
    if number < pass.kept().len() {
        return Err(RunFault::Strayed);
    }
    Ok(())
}

/// Returns an error unless the receipts of each pass are those of its actor's lines.
pub(crate) fn follow_all(
    alloc: Global,
    steps: &[ScriptStep],
    passes: &[Pass<u64>],
) -> Result<(), RunFault>
//~     ensures { OnOk result (Each (IsFollowed steps.now) passes.now) }
{
    for pass in passes {
        follow(alloc, steps, pass)?;
    }
    Ok(())
}
