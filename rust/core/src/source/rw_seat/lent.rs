//! The book while a seat has acquired it.
// From crates/rw_seat/src/lent.rt, with its contracts as comments. //+

//~ ghost use Rattle.std.specs.Prelude.{◌≡◌, ◌∷◌, [], Some};
//~ ghost use Rattle.rw_seat.specs.Journals.{Adds};
//~ ghost use Rattle.rw_seat.specs.Rule.{Holds};

use crate::source::rw_seat::acquiring::{TableSeat, release};
use crate::source::rw_seat::hand_off::{HandOff, HandSeat};
use crate::source::rw_journal::Keeps;

/// The book, lent to a seat. If it is dropped, the book is never released, and no other seat can acquire it.
//~ #[derive(Drop)]
pub struct Lent<'a, B: Keeps /*~+ Drop~*/> {
    pub(crate) from: &'a HandOff<B>,
    pub(crate) number: u32,
    pub(crate) seat: TableSeat<B>,
    pub(crate) book: B,
//~     ghost mine: { Holds number seat.me },
//~     ghost of_table: { seat.table_id ≡ from.now.home.table },
//~     ghost start: { seat.me.0.start ≡ from.now.home.start },
}

impl<'a, B: Keeps /*~+ Drop~*/> Lent<'a, B> {
    /// Releases the book. The seat has then seen its whole journal.
    #[inline(always)] //+
    pub fn give(self) -> HandSeat<B>
//~         requires start { Some (B.start self.book) ≡ self.from.now.home.start }
//~         requires adds { Adds B.author (self.number ∷ []) self.seat.me.0.front (B.journal self.book) }
//~         ensures number { result.number ≡ self.entry.number }
//~         ensures home { result.home ≡ self.entry.from.now.home }
//~         ensures front { result.front ≡ B.journal self.entry.book }
    {
        let Lent {
            from,
            number,
            mut seat,
            book,
        } = self;
        release(&from.table.shared, &from.sleepers, &mut seat, book);
        HandSeat { number, seat }
    }
}
