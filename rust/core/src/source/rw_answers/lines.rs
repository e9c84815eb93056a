//! Words and numbers of the lines that a page gets.
// From crates/rw_answers/src/lines.rt, with its contracts as comments. //+
use crate::shim::Vec; //+

//~ ghost use Rattle.std.specs.Prelude.{◌≡◌, ◌++◌, OnOk};
//~ ghost use Rattle.rw_blocks.specs.Labels.{with_number};
//~ ghost use Rattle.rw_answers.specs.Lines.{number_or_dash};

use crate::source::rw_lines::push_number;
use crate::shim::alloc::AllocError;

/// Appends a number and the words before it.
//~ #[tactic(auto, unfolding(rw_blocks::specs::Labels::with_number))]
pub fn push_with_number(out: &mut Vec<u8>, words: &[u8], n: u64) -> Result<(), AllocError>
//~     ensures { OnOk result (out.new.items ≡ out.old.items ++ with_number words.now n) }
{
    out.extend_from_slice(words)?;
    push_number(out, n)
}

/// Appends a number, or a dash where there is none.
pub fn push_number_or_dash(out: &mut Vec<u8>, number: Option<u64>) -> Result<(), AllocError>
//~     ensures { OnOk result (out.new.items ≡ out.old.items ++ number_or_dash number) }
{
    match number {
        None => out.extend_from_slice(b" -"),
        Some(n) => push_with_number(out, b" ", n),
    }
}
