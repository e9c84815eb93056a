//! What a page asks of the walk over the run that it holds.
// From crates/rw_answers/src/held_pages.rt, with its contracts as comments. //+
use crate::shim::Vec; //+

//~ ghost use Rattle.std.specs.Prelude.{◌≡◌, ◌++◌, IfOk, OnOk};
//~ ghost use Rattle.rw_answers.specs.HeldPages.{answers_of, state_line, state_lines};
//~ ghost use Rattle.rw_answers.specs.Pages.{IsWithin};

use crate::source::rw_console::{MOST_BYTES, Walk, debug_again};
use crate::source::rw_law::NoMemory;
use crate::source::rw_lines::StreamFault;
use crate::source::rw_navigator::Move;
use crate::shim::alloc::{AllocError, Global};

/// Returns what commands write over the run. Only if more than `MOST_BYTES` bytes of them would have to be read, it returns
/// `TooMuch`.
pub fn answers_page(alloc: Global, walk: &mut Walk, commands: &[u8]) -> Result<Vec<u8>, StreamFault>
//~     ensures text { IfOk result (λ text. text.items ≡ answers_of walk.old.run commands.now) }
//~     ensures limit { OnOk result (IsWithin MOST_BYTES (answers_of walk.old.run) commands.now) }
//~     ensures run { walk.new.run ≡ walk.old.run }
{
    let mut text = Vec::new(alloc);
    let mut input = commands;
    debug_again(alloc, walk, &mut input, &mut text)?;
    Ok(text)
}

/// Returns the lines with the states of these places.
pub fn states_page(alloc: Global, walk: &mut Walk, places: &[u64]) -> Result<Vec<u8>, NoMemory>
//~     ensures text { IfOk result (λ text. text.items ≡ state_lines walk.old.run places.now) }
//~     ensures run { walk.new.run ≡ walk.old.run }
{
    let mut text = Vec::new(alloc);
    for place in places {
        push_state(&mut text, walk, *place)?;
    }
    Ok(text)
}

/// Goes to a place and appends the line with its state, if there is such a place.
fn push_state(out: &mut Vec<u8>, walk: &mut Walk, place: u64) -> Result<(), AllocError>
//~     ensures line { OnOk result (out.new.items ≡ out.old.items ++ state_line walk.old.run place) }
//~     ensures run { walk.new.run ≡ walk.old.run }
{
    if walk.step(Move::Goto(place)).is_err() {
        return Ok(());
    }
    walk.push_json(out)
}
