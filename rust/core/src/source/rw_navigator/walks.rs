//! Moves and lists of moves.
// From crates/rw_navigator/src/walks.rt, with its contracts as comments. //+
use crate::shim::Vec; //+

//~ ghost use Rattle.std.specs.Prelude.{◌≡◌, ◌≤◌, ◌-◌, length, IfOk, OnOk, OnErr};
//~ ghost use Rattle.rw_navigator.specs.Navigator.{MovedTo};
//~ ghost use Rattle.rw_navigator.specs.Moves.{distance_between, answer_to, answers_to, MovedBy, WalkedBy};

use crate::source::rw_navigator::moves::{Move, OutOfRange};
use crate::source::rw_navigator::places::Navigator;
use crate::source::rw_law::{NoMemory, Reversible};
use crate::shim::alloc::Global;

impl<R: Reversible> Navigator<R> {
    /// Makes a move, by undoing or redoing one entry per place. A move that leads to no place is refused, and changes nothing.
    pub fn step(&mut self, to: Move) -> Result<(), OutOfRange>
//~         ensures answer { result ≡ answer_to (length self.old.entries) self.old.place to }
//~         ensures moved { MovedBy R.Reversible self.old self.new to }
//~         ensures refused { OnErr result (self.new ≡ self.old) }
    {
        match to.destination(self.place(), self.len()) {
            Some(place) => {
                self.go_to(place);
                Ok(())
            }
            None => Err(OutOfRange),
        }
    }

    /// Makes the moves in order, and returns the result of each as `step` does. The list of results is allocated before the
    /// first move.
    pub fn walk(
        &mut self,
        alloc: Global,
        moves: &[Move],
    ) -> Result<Vec<Result<(), OutOfRange>>, NoMemory>
//~         ensures answers { IfOk result (λ answers.
//~             answers.items ≡ answers_to (length self.old.entries) self.old.place moves.now) }
//~         ensures moved { OnOk result (WalkedBy R.Reversible self.old self.new moves.now) }
//~         ensures refused { OnErr result (self.new ≡ self.old) }
    {
        let mut answers = Vec::with_capacity(alloc, moves.len())?;
        // The proof needs this call: it ensures that the machine shows the state of the place, even if there is no move.
        let _place = self.place();
        for to in moves {
            let answer = self.step(*to);
            answers.push_reserved(answer);
        }
        Ok(answers)
    }

    /// Goes to a place, in either direction.
    fn go_to(&mut self, place: u64)
//~         requires { place ≤ length self.old.entries }
//~         ensures { MovedTo R.Reversible self.old self.new place (distance_between self.old.place place) }
    {
        if place < self.place() {
            self.go_back(place)
        } else {
            self.go_on(place)
        }
    }

    /// Goes back to a place.
    pub(crate) fn go_back(&mut self, place: u64)
//~         requires { place ≤ self.old.place }
//~         ensures { MovedTo R.Reversible self.old self.new place (self.old.place - place) }
    {
        for _ in place..self.place() {
            self.retreat();
        }
    }

    /// Goes forward to a place.
    pub(crate) fn go_on(&mut self, place: u64)
//~         requires from { self.old.place ≤ place }
//~         requires inside { place ≤ length self.old.entries }
//~         ensures { MovedTo R.Reversible self.old self.new place (place - self.old.place) }
    {
        for _ in self.place()..place {
            self.advance();
        }
    }
}
