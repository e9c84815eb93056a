//! Closing a hand-off.
// From crates/rw_seat/src/closing.rt, with its contracts as comments. //+
use crate::shim::{Vec, VecExt}; //+

//~ ghost use Rattle.std.specs.Prelude.{◌≡◌, ◌<◌, ◌∷◌, [], ℕ, Some, map, IfOk, IfErr, All, MatchBool};
//~ ghost use Rattle.rw_seat.specs.Journals.{IsIn, IsQuiet};

use crate::source::rw_seat::hand_off::{HandOff, HandSeat};
use crate::source::rw_seat::rule::Meet;
use crate::source::rw_journal::Keeps;

/// Whether a seat with this number is here.
fn has<B: Keeps>(seats: &Vec<HandSeat<B>>, number: u32) -> bool
//~     ensures { MatchBool result (IsIn number (map (λ s. s.number) seats.now.items)) (IsIn number (map (λ s. s.number) seats.now.items) → ⊥) }
{
    for seat in seats {
        if seat.number == number {
            return true;
        }
    }
    false
}

impl<B: Keeps /*~+ Drop~*/> HandOff<B> {
    /// Whether all seats are here.
    fn has_all(&self, seats: &Vec<HandSeat<B>>) -> bool
//~         ensures { MatchBool result
//~             ((n : ℕ) → n < self.now.seats → IsIn n (map (λ s. s.number) seats.now.items))
//~             ((n : ℕ) × (n < self.now.seats) × (IsIn n (map (λ s. s.number) seats.now.items) → ⊥)) }
    {
        for number in 0..self.seats {
            if !has(seats, number) {
                return false;
            }
        }
        true
    }

    /// Closes the hand-off, and returns the book. Its journal begins with all that any seat has seen. If a seat is missing, the
    /// hand-off and the seats are returned.
    pub fn close(self, seats: Vec<HandSeat<B>>) -> Result<B, (HandOff<B>, Vec<HandSeat<B>>)>
//~         requires { All (λ s. s.home ≡ self.home) seats.items }
//~         ensures all { IfOk result (λ book. (n : ℕ) → n < self.seats → IsIn n (map (λ s. s.number) seats.items)) }
//~         ensures start { IfOk result (λ book. Some (B.start book) ≡ self.home.start) }
//~         ensures fronts { IfOk result (λ book. All (λ s. IsQuiet B.author (s.number ∷ []) s.front (B.journal book)) seats.items) }
//~         ensures missing { IfErr result (λ r. (n : ℕ) × (n < self.seats) × (IsIn n (map (λ s. s.number) seats.items) → ⊥)) }
//~         ensures same { IfErr result (λ r. (r.0 ≡ self) × (r.1 ≡ seats)) }
    {
        if !self.has_all(&seats) {
            return Err((self, seats));
        }
        let mut seats = seats;
        let Some(hand_seat) = seats.pop() else {
            unreachable!()
        };
        let HandSeat {
            number: _,
            seat: mut all,
        } = hand_seat;
        while let Some(hand_seat) = seats.pop() {
            let HandSeat { number: _, seat } = hand_seat;
            self.table.shared.join_seat::<Meet>(&mut all, seat);
        }
        seats.destroy_empty();
        let HandOff {
            table,
            seats: _,
            sleepers: _,
        } = self;
        let mut closed = table.close_with(all);
        let book = closed.take(0).unwrap();
        closed.free();
        Ok(book)
    }
}
