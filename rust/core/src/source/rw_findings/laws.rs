//! What holds of the findings of every run.
// From crates/rw_findings/src/laws.rt, with its contracts as comments. //+
//~ ghost use Rattle.rw_findings.specs.Laws.{ClosingsAreUnique, LivesAreUnique, LossesAreUnique, LostValuesFollow, PeaksAreUnique};
//~ ghost use Rattle.rw_findings.specs.Laws.{ToldLossesAreReplies, TotalsAddUp, TotalsAreUnique, ValuesAreUnique};

/// A run has its findings in one way alone. The function does nothing: its clauses are the laws.
pub fn unique_findings<V: Copy>()
//~     ensures losses { LossesAreUnique V }
//~     ensures totals { TotalsAreUnique V }
//~     ensures closings { ClosingsAreUnique V }
//~     ensures peaks { PeaksAreUnique V }
//~     ensures lives { LivesAreUnique V }
//~     ensures values { ValuesAreUnique V }
{}

/// Losses are of values that follow one another, and agree with the replies that told of them and with totals. The function does nothing.
pub fn losses_and_entries<V: Copy>()
//~     ensures values { LostValuesFollow V }
//~     ensures told { ToldLossesAreReplies V }
//~     ensures totals { TotalsAddUp V }
{}
