//! The search towards the end.
// From crates/rw_navigator/src/search_forward.rt, with its contracts as comments. //+

//~ ghost use Rattle.std.specs.Prelude.{Bool, IsTrue, unwrap_or, IfSome, length, ◌≡◌, ◌<◌, ◌≤◌, ◌-◌};
//~ ghost use Rattle.rw_navigator.specs.Navigator.{start_of, MovedTo};
//~ ghost use Rattle.rw_navigator.specs.Moves.{distance_between};
//~ ghost use Rattle.rw_navigator.specs.Search.{hit, step_hit, state_hit, first_above, most_above, TestsView, SearchedTo};

use crate::source::rw_navigator::conditions::{Probe, comes_true};
use crate::source::rw_navigator::places::Navigator;
use crate::source::rw_law::Reversible;

impl<R: Reversible> Navigator<R> {
    /// Goes to the nearest hit above the place, and returns it. A hit is a place whose entry meets the condition, or whose
    /// state does while the state before it doesn't. Without such a hit, the place stays the same.
    pub fn forward_to<P: Probe<R>>(&mut self, probe: &P) -> Option<u64>
//~         ensures found { (f : R.View → Bool) → TestsView R.Reversible f (P.holds_of_state probe.now) →
//~             result ≡ first_above (hit R.Reversible (P.asks_step probe.now) (P.holds_of_step probe.now) f self.old)
//~             self.old.place (length self.old.entries) }
//~         ensures moved { SearchedTo R.Reversible self.old self.new result (most_above self.old.place (length self.old.entries) result) }
//~         ensures above { IfSome result (λ place. (self.old.place < place) × (place ≤ length self.old.entries)) }

        // For a condition on entries, no premise is needed, and only the calls on the way are made.
//~         ensures found_step { IsTrue (P.asks_step probe.now) →
//~             result ≡ first_above (step_hit (P.holds_of_step probe.now) self.old.entries)
//~             self.old.place (length self.old.entries) }
//~         ensures moved_step { IsTrue (P.asks_step probe.now) →
//~             MovedTo R.Reversible self.old self.new (unwrap_or result self.old.place)
//~             (distance_between self.old.place (unwrap_or result self.old.place)) }
    {
        if probe.on_step() {
            self.forward_to_step(probe)
        } else {
            self.forward_to_state(probe)
        }
    }

    /// Goes forward to the nearest entry that meets the condition.
    fn forward_to_step<P: Probe<R>>(&mut self, probe: &P) -> Option<u64>
//~         ensures found { result ≡ first_above (step_hit (P.holds_of_step probe.now) self.old.entries)
//~             self.old.place (length self.old.entries) }
//~         ensures above { IfSome result (λ place. (self.old.place < place) × (place ≤ length self.old.entries)) }
//~         ensures no_nearer { self.old.place ≤ unwrap_or result self.old.place }
//~         ensures inside { unwrap_or result self.old.place ≤ length self.old.entries }
//~         ensures moved { MovedTo R.Reversible self.old self.new (unwrap_or result self.old.place)
//~             (unwrap_or result self.old.place - self.old.place) }
    {
        let found = self.first_step_above(probe);
        self.go_on(found.unwrap_or(self.place()));
        found
    }

    /// Returns the nearest place above whose entry meets the condition.
    fn first_step_above<P: Probe<R>>(&self, probe: &P) -> Option<u64>
//~         ensures found { result ≡ first_above (step_hit (P.holds_of_step probe.now) self.now.entries)
//~             self.now.place (length self.now.entries) }
//~         ensures above { IfSome result (λ place. (self.now.place < place) × (place ≤ length self.now.entries)) }
    {
        for place in self.place()..self.len() {
            if probe.step(self.entry_before(place + 1)) {
                return Some(place + 1);
            }
        }
        None
    }

    /// Goes forward to the nearest place where the condition on states becomes true.
    fn forward_to_state<P: Probe<R>>(&mut self, probe: &P) -> Option<u64>
//~         ensures found { (f : R.View → Bool) → TestsView R.Reversible f (P.holds_of_state probe.now) →
//~             result ≡ first_above (state_hit R.Reversible f (start_of R.Reversible self.old) self.old.entries)
//~             self.old.place (length self.old.entries) }
//~         ensures moved { SearchedTo R.Reversible self.old self.new result (most_above self.old.place (length self.old.entries) result) }
//~         ensures above { IfSome result (λ place. (self.old.place < place) × (place ≤ length self.old.entries)) }
    {
        let from = self.place();
        let mut before = probe.state(self.state());
        for place in from..self.len() {
            self.advance();
            let holds = probe.state(self.state());
            if comes_true(before, holds) {
                return Some(place + 1);
            }
            before = holds;
        }
        self.go_back(from);
        None
    }
}
