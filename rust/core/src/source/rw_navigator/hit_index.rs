//! The hits of a condition on entries, found once for many searches.
// From crates/rw_navigator/src/hit_index.rt, with its contracts as comments. //+
use crate::shim::Vec; //+

//~ ghost use Rattle.std.specs.Prelude.{◌≡◌, ◌<◌, ◌≤◌, IsTrue, IfOk, IfSome, length, vec_capacity};
//~ ghost use Rattle.rw_navigator.specs.HitIndex.{hits_of};
//~ ghost use Rattle.rw_navigator.specs.Search.{first_above, last_below, step_hit};

use crate::source::rw_navigator::conditions::Probe;
use crate::source::rw_navigator::places::Navigator;
use crate::source::rw_law::{Entry, NoMemory, Reversible};
use crate::shim::alloc::Global;
//~ use std::marker::Model;
use crate::shim::snapshot::Snapshot;

/// The places of the entries that meet a condition, in order. A lookup is a binary search, where a search tests entry by entry.
//~ #[derive(Drop)]
pub struct HitIndex<R: Reversible, P: Probe<R>> {
    // Both have no bytes at run time: they show the condition and the journal to contracts.
    probe: Snapshot<P>,
    entries: Snapshot<Vec<Entry<R>>>,
    places: Vec<u64>,
}

//~ impl<R: Reversible, P: Probe<R>> Model for HitIndex<R, P> {
//~     ghost use Rattle.std.specs.Prelude.{◌≡◌};
//~     ghost use Rattle.rw_navigator.specs.HitIndex.{HitIndex as Seen, hits_of};
//~
//~     ghost Value = { Seen R R.Call R.Reply R.Patch P };
//~
//~     ghost view = { λ a. record { probe = a.probe.value; entries = a.entries.value.items } };
//~
//~     ghost invariant = { λ a. a.places.items ≡ hits_of (P.holds_of_step a.probe.value) a.entries.value.items };
//~ }

impl<R: Reversible, P: Probe<R>> HitIndex<R, P> {
    /// Builds the index of a condition on entries over a navigator's journal. The hits are counted first, so that exactly 8
    /// bytes are allocated for each.
    pub fn build(
        alloc: Global,
        navigator: &Navigator<R>,
        probe: &P,
    ) -> Result<HitIndex<R, P>, NoMemory>
//~         requires { IsTrue (P.asks_step probe.now) }
//~         ensures probe { IfOk result (λ index. index.probe ≡ probe.now) }
//~         ensures entries { IfOk result (λ index. index.entries ≡ navigator.now.entries) }
    {
        let places = navigator.step_hits(alloc, probe)?;
        Ok(HitIndex {
            probe: Snapshot::of(probe),
            entries: Snapshot::of(&navigator.entries),
            places,
        })
    }

    /// Returns the greatest place below this one whose entry meets the condition.
    pub fn before(&self, place: u64) -> Option<u64>
//~         ensures found { result ≡ last_below (step_hit (P.holds_of_step self.now.probe) self.now.entries) place }
//~         ensures below { IfSome result (λ hit. (0 < hit) × (hit < place) × (hit ≤ length self.now.entries)) }
    {
        let below = self.places.as_slice().partition_point(|hit| *hit < place);
        if below == 0 {
            return None;
        }
        Some(self.places[below - 1])
    }

    /// Returns the least place above this one whose entry meets the condition.
    pub fn after(&self, place: u64) -> Option<u64>
//~         ensures found { result ≡ first_above (step_hit (P.holds_of_step self.now.probe) self.now.entries) place (length self.now.entries) }
//~         ensures above { IfSome result (λ hit. (place < hit) × (hit ≤ length self.now.entries)) }
    {
        let passed = self.places.as_slice().partition_point(|hit| *hit <= place);
        if passed == self.places.len() {
            return None;
        }
        Some(self.places[passed])
    }
}

impl<R: Reversible> Navigator<R> {
    /// Counts the entries that meet a condition.
    fn count_step_hits<P: Probe<R>>(&self, probe: &P) -> usize
//~         ensures { result ≡ length (hits_of (P.holds_of_step probe.now) self.now.entries) }
    {
        let mut count = 0;
        for i in 0..self.len() {
            if probe.step(self.entry_before(i + 1)) {
                count += 1;
            }
        }
        count
    }

    /// Returns the places of these entries, in a list with room for no more.
    fn step_hits<P: Probe<R>>(&self, alloc: Global, probe: &P) -> Result<Vec<u64>, NoMemory>
//~         ensures hits { IfOk result (λ places. places.items ≡ hits_of (P.holds_of_step probe.now) self.now.entries) }
//~         ensures exact { IfOk result (λ places. vec_capacity places ≡ length places.items) }
    {
        let mut places = Vec::with_capacity(alloc, self.count_step_hits(probe))?;
        for i in 0..self.len() {
            if probe.step(self.entry_before(i + 1)) {
                places.push_reserved(i + 1);
            }
        }
        Ok(places)
    }
}
