//! What a ring's values are, among all that were put.
// From crates/rw_ring/src/laws.rt, with its contracts as comments. //+
//~ ghost use Rattle.rw_ring.specs.Laws.{UnputUndoesPut, PutFitsUnput, PutKeepsTheLast, ReadsByPosition};

/// Holds of every window. The function does nothing: its clauses are the laws.
pub fn window_laws<V: Copy>()
//~     ensures undoes { UnputUndoesPut V }
//~     ensures fits { PutFitsUnput V }
//~     ensures last { PutKeepsTheLast V }
//~     ensures position { ReadsByPosition V }
{}
