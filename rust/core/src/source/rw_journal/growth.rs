//! Room in a machine, made in advance.
// From crates/rw_journal/src/growth.rt, with its contracts as comments. //+

//~ ghost use Rattle.std.specs.Prelude.{◌≡◌, ◌+◌, ◌≤◌, ◌<◌, IfOk, OnOk};
//~ ghost use Rattle.rw_law.specs.declared.limits.TheConstants.{MOST_WEIGHT};

use crate::source::rw_law::{NoMemory, Reversible};

/// Returns how many calls a machine has room for. Where it has none, it first makes room for `ahead` calls, or for one if that
/// allocation fails.
pub fn room_for_calls<M: Reversible>(machine: &mut M, ahead: u64) -> Result<u64, NoMemory>
//~     requires some { 0 < ahead }
//~     requires light { M.weigh (M.shown machine.old) + ahead ≤ MOST_WEIGHT }
//~     ensures view { M.shown machine.new ≡ M.shown machine.old }
//~     ensures room { IfOk result (λ n. (0 < n) × (M.weigh (M.shown machine.new) + n ≤ M.reserved machine.new)) }
//~     ensures known { M.allowed (M.shown machine.new) }
//~     ensures kept { M.reserved machine.old ≤ M.reserved machine.new }
{
    let weight = machine.weight();
    if machine.limit() <= weight && machine.ready(ahead).is_err() {
        machine.ready(1)?;
    }
    Ok(machine.limit() - weight)
}

/// Makes room for n calls.
pub fn room_for_all<M: Reversible>(machine: &mut M, n: u64) -> Result<(), NoMemory>
//~     requires { M.weigh (M.shown machine.old) + n ≤ MOST_WEIGHT }
//~     ensures view { M.shown machine.new ≡ M.shown machine.old }
//~     ensures room { OnOk result (M.weigh (M.shown machine.new) + n ≤ M.reserved machine.new) }
//~     ensures known { M.allowed (M.shown machine.new) }
{
    if machine.weight() + n > machine.limit() {
        machine.ready(n)?;
    }
    Ok(())
}
