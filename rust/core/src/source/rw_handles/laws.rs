//! What each undoing restores, and which slots are renamings of others.
// From crates/rw_handles/src/laws.rt, with its contracts as comments. //+
//~ ghost use Rattle.rw_handles.specs.Laws.{UnmakeUndoesMake, UndropUndoesDrop, SetUndoesSet};
//~ ghost use Rattle.rw_handles.specs.Laws.{KeepsRenamingAtMake, KeepsRenamingAtMap, KeepsRenamingAtSet, RenamesLiveOnes, RenamesTwice};
//~ ghost use Rattle.rw_handles.specs.Reordering.{RenamesAtExchange, RenamesAtInsertion};
//~ ghost use Rattle.rw_handles.specs.Sorting.{RenamesSorted};

/// Each undoing restores the slots before the step. The function does nothing: its clauses are the laws.
pub fn undoings<X: Copy>()
//~     ensures unmake { UnmakeUndoesMake X }
//~     ensures undrop { UndropUndoesDrop X }
//~     ensures set { SetUndoesSet X }
{}

/// Handles under other numbers: the live handles alone are a renaming of all, what is done to both leaves a renaming one, and so
/// is one renaming after another. The function does nothing: its clauses are the laws.
pub fn renamings<X: Copy>()
//~     ensures live { RenamesLiveOnes X }
//~     ensures make { KeepsRenamingAtMake X }
//~     ensures set { KeepsRenamingAtSet X }
//~     ensures map { KeepsRenamingAtMap X }
//~     ensures twice { RenamesTwice X }
    // A dropped handle is put in between, and two neighbours change places.
//~     ensures insertion { RenamesAtInsertion X }
//~     ensures exchange { RenamesAtExchange X }
    // The live handles are put in any order.
//~     ensures sorted { RenamesSorted X }
{}
