//! The lines that show a run's entries.
// From crates/rw_console/src/entries.rt, with its contracts as comments. //+
use crate::shim::Vec; //+

//~ ghost use Rattle.std.specs.Prelude.{◌≡◌, ◌++◌, OnOk, false};
//~ ghost use Rattle.rw_console.specs.Entries.{entry_line};

use crate::source::rw_law::{Entry, Reversible};
use crate::source::rw_lines::push_number;
use crate::source::rw_words::write_entry;
use crate::source::rw_world::World;
use crate::shim::alloc::AllocError;

/// Appends the line of the entry that leads to a place.
//~ #[tactic(auto, unfolding(crate::specs::Entries::entry_line))]
pub fn push_entry(
    out: &mut Vec<u8>,
    place: u64,
    entry: &Entry<World<u64>>,
) -> Result<(), AllocError>
//~     requires recorded { ⟦<World<u64> as Reversible>⟧.is_waiting entry.now.reply ≡ false }
//~     requires sent { ⟦<World<u64> as Reversible>⟧.is_straying entry.now.reply ≡ false }
//~     ensures { OnOk result (out.new.items ≡ out.old.items ++ entry_line place entry.now) }
{
    let mut text = [0u8; 256];
    let end = write_entry(entry, &mut text);
    out.extend_from_slice(b"#")?;
    push_number(out, place)?;
    out.extend_from_slice(b" ")?;
    out.extend_from_slice(&text[..end])?;
    out.extend_from_slice(b"\n")
}
