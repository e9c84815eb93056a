//! The book of a `Lent`, to write to. Its clause names the row of `Lent`, which the file that declares it can't import.
// From crates/rw_seat/src/lent_book.rt, with its contracts as comments. //+

//~ ghost use Rattle.std.specs.Prelude.{◌≡◌};
//~ ghost use Rattle.std.specs.Borrow.{sem};
//~ ghost use Rattle.rw_seat.specs.LentBook.{LendsBook};

use crate::source::rw_seat::lent::Lent;
use crate::source::rw_journal::Keeps;

impl<'a, B: Keeps /*~+ Drop~*/> Lent<'a, B> {
    /// Returns the book. What is written through the borrow is in the book when the borrow ends.
    #[inline(always)] //+
    pub fn book(&mut self) -> &mut B
//~         ensures* writes_back { sem 𝓛 (LendsBook B.row B.Entry.row B.Start.row B.author B.start B.journal self.entry result) }
//~         ensures value { result.now ≡ self.old.book }
    {
        &mut self.book
    }
}
