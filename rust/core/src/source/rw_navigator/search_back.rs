//! The search towards the start.
// From crates/rw_navigator/src/search_back.rt, with its contracts as comments. //+

//~ ghost use Rattle.std.specs.Prelude.{Bool, IsTrue, unwrap_or, IfSome, ◌≡◌, ◌<◌, ◌≤◌, ◌-◌};
//~ ghost use Rattle.rw_navigator.specs.Navigator.{start_of, MovedTo};
//~ ghost use Rattle.rw_navigator.specs.Moves.{distance_between};
//~ ghost use Rattle.rw_navigator.specs.Search.{hit, step_hit, state_hit, last_below, most_below, TestsView, SearchedTo};

use crate::source::rw_navigator::conditions::{Probe, comes_true};
use crate::source::rw_navigator::places::Navigator;
use crate::source::rw_law::Reversible;

impl<R: Reversible> Navigator<R> {
    /// Goes to the nearest hit below the place, and returns it. A hit is a place whose entry meets the condition, or whose
    /// state does while the state before it doesn't. Without such a hit, the place stays the same.
    pub fn back_to<P: Probe<R>>(&mut self, probe: &P) -> Option<u64>
//~         ensures found { (f : R.View → Bool) → TestsView R.Reversible f (P.holds_of_state probe.now) →
//~             result ≡ last_below (hit R.Reversible (P.asks_step probe.now) (P.holds_of_step probe.now) f self.old) self.old.place }
//~         ensures moved { SearchedTo R.Reversible self.old self.new result (most_below self.old.place result) }
//~         ensures below { IfSome result (λ place. (0 < place) × (place < self.old.place)) }

        // For a condition on entries, no premise is needed, and only the calls on the way are made.
//~         ensures found_step { IsTrue (P.asks_step probe.now) →
//~             result ≡ last_below (step_hit (P.holds_of_step probe.now) self.old.entries) self.old.place }
//~         ensures moved_step { IsTrue (P.asks_step probe.now) →
//~             MovedTo R.Reversible self.old self.new (unwrap_or result self.old.place)
//~             (distance_between self.old.place (unwrap_or result self.old.place)) }
    {
        if probe.on_step() {
            self.back_to_step(probe)
        } else {
            self.back_to_state(probe)
        }
    }

    /// Goes back to the nearest entry that meets the condition.
    fn back_to_step<P: Probe<R>>(&mut self, probe: &P) -> Option<u64>
//~         ensures found { result ≡ last_below (step_hit (P.holds_of_step probe.now) self.old.entries) self.old.place }
//~         ensures below { IfSome result (λ place. (0 < place) × (place < self.old.place)) }
//~         ensures no_farther { unwrap_or result self.old.place ≤ self.old.place }
//~         ensures moved { MovedTo R.Reversible self.old self.new (unwrap_or result self.old.place)
//~             (self.old.place - unwrap_or result self.old.place) }
    {
        let found = self.last_step_below(probe);
        self.go_back(found.unwrap_or(self.place()));
        found
    }

    /// Returns the nearest place below whose entry meets the condition.
    fn last_step_below<P: Probe<R>>(&self, probe: &P) -> Option<u64>
//~         ensures found { result ≡ last_below (step_hit (P.holds_of_step probe.now) self.now.entries) self.now.place }
//~         ensures below { IfSome result (λ place. (0 < place) × (place < self.now.place)) }
    {
        let here = self.place();
        for place in (1..here).rev() {
            if probe.step(self.entry_before(place)) {
                return Some(place);
            }
        }
        None
    }

    /// Goes back to the nearest place where the condition on states becomes true.
    fn back_to_state<P: Probe<R>>(&mut self, probe: &P) -> Option<u64>
//~         ensures found { (f : R.View → Bool) → TestsView R.Reversible f (P.holds_of_state probe.now) →
//~             result ≡ last_below (state_hit R.Reversible f (start_of R.Reversible self.old) self.old.entries) self.old.place }
//~         ensures moved { SearchedTo R.Reversible self.old self.new result (most_below self.old.place result) }
//~         ensures below { IfSome result (λ place. (0 < place) × (place < self.old.place)) }
    {
        let from = self.place();
        if from == 0 {
            return None;
        }
        self.retreat();
        let mut holds = probe.state(self.state());
        for place in (1..from).rev() {
            self.retreat();
            let before = probe.state(self.state());
            if comes_true(before, holds) {
                self.advance();
                return Some(place);
            }
            holds = before;
        }
        self.go_on(from);
        None
    }
}
