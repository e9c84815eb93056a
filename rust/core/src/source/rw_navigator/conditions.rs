//! Conditions to search for.
// From crates/rw_navigator/src/conditions.rt, with its contracts as comments. //+

//~ ghost use Rattle.std.specs.Prelude.{◌≡◌, Bool, not, ◌&&◌};
//~ ghost use Rattle.rw_law.specs.declared.journal.Entry.{Entry as EntryOf};

use crate::source::rw_law::{Entry, Reversible};

/// A condition on the entries of a journal, or on its states.
///
/// A condition on states should depend only on what a machine shows. If it reads the reserved room, the searches don't promise
/// which place they find.
pub trait Probe<R: Reversible> {
//~     /// Whether it is a condition on entries.
//~     ghost asks_step: { Self → Bool };

//~     /// Whether an entry meets it.
//~     ghost holds_of_step: { Self → EntryOf R R.Call R.Reply R.Patch → Bool };

//~     /// Whether a machine meets it.
//~     ghost holds_of_state: { Self → R → Bool };

    /// Whether it is a condition on entries. If not, it is one on states.
    fn on_step(&self) -> bool
        /*~ensures { result ≡ asks_step self.now }~*/;

    /// Whether an entry meets it.
    fn step(&self, entry: &Entry<R>) -> bool
        /*~ensures { result ≡ holds_of_step self.now entry.now }~*/;

    /// Whether a state meets it.
    fn state(&self, state: &R) -> bool
        /*~ensures { result ≡ holds_of_state self.now state.now }~*/;
}

/// Returns `true` if a condition holds now and didn't before.
pub(crate) fn comes_true(before: bool, now: bool) -> bool
//~     ensures { result ≡ now && not before }
{
    now && !before
}
