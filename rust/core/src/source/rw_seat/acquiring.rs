//! Acquiring and releasing the book of a hand-off.
// From crates/rw_seat/src/acquiring.rt, with its contracts as comments. //+

//~ ghost use Rattle.std.specs.Prelude.{◌≡◌, ◌∷◌, [], ℕ, List, None, Some, true};
//~ ghost use Rattle.rw_seat.specs.Journals.{Adds};
//~ ghost use Rattle.rw_seat.specs.Rule.{Fits, resting, view_of};

use crate::source::rw_seat::rule::{Acquire, OneBook, Release};
use crate::source::rw_seat::view::{Opening, View};
use crate::shim::atomic_table::{Seat, Shared};
use crate::source::rw_journal::Keeps;
use crate::shim::hint::spin_loop;
use crate::shim::sync::Wait;
use crate::shim::sync::atomic::AtomicU64;
use crate::shim::sync::atomic::Ordering::SeqCst;

/// The word while the book is free: the slot has it.
pub(crate) const FREE: u64 = 0;

/// The word while a seat has the book.
const ACQUIRED: u64 = 1;

/// How many times a failed acquire spins before it parks.
const LOOKS: u32 = 64;

/// A seat of the table, with what the rule knows of it.
pub(crate) type TableSeat<B> = Seat<Option<B>, View<<B as Keeps>::Entry, <B as Keeps>::Start>>;

/// The table: one word, and one slot that has the book while it is free.
pub(crate) type SharedTable<B> = Shared<
    Option<B>,
    View<<B as Keeps>::Entry, <B as Keeps>::Start>,
    Opening<B>,
    OneBook<B>,
>;

/// Acquires the book, and blocks until it is free.
#[inline(always)] //+
pub(crate) fn acquire<B: Keeps, R: Wait>(
    table: &SharedTable<B>,
    sleepers: &AtomicU64,
    rt: &R,
    seat: &mut TableSeat<B>,
) -> B
//~     requires one { (table.now.table_id.words ≡ 1) × (table.now.table_id.slots ≡ 1) }
//~     requires of_table { seat.old.table_id ≡ table.now.table_id }
//~     requires living { (n : ℕ) × (ns : List ℕ) × (seat.old.me.0.numbers ≡ n ∷ ns) }
//~     requires idle { seat.old.me.1 ≡ [] }
//~     ensures same { (seat.new.table_id ≡ seat.old.table_id) × (seat.new.id ≡ seat.old.id) }
//~     ensures held { seat.new.me ≡ (view_of seat.old.me.0.numbers seat.old.me.0.start (B.journal result) true [], (0, None) ∷ []) }
//~     ensures start { seat.old.me.0.start ≡ Some (B.start result) }
//~     ensures fits { Fits B.author (B.journal result) seat.old.me.0 }
{
    for _ in rt.forever() {
        if table.compare_exchange::<Acquire<B>>(seat, 0, FREE, ACQUIRED) == FREE {
            return table.exchange(seat, 0, None).unwrap();
        }
        wait_until_free(table, sleepers, rt);
    }
    unreachable!()
}

/// Spins up to `LOOKS` times. If the book isn't free by then, it parks until a release. It may also wake without one.
fn wait_until_free<B: Keeps, R: Wait>(table: &SharedTable<B>, sleepers: &AtomicU64, rt: &R)
//~     requires { table.now.table_id.words ≡ 1 }
{
    for _ in 0..LOOKS {
        if table.peek(0) == FREE {
            return;
        }
        spin_loop();
    }
    sleepers.fetch_add(1, SeqCst);
    table.park(rt, 0, ACQUIRED as u32);
    sleepers.fetch_sub(1, SeqCst);
}

/// Releases the book, and wakes one thread if any is parked or about to park.
///
/// No wake is missed. A thread counts itself among the sleepers first, and then parks only if the word isn't `FREE`. All of these
/// steps, on the word and on the count, have one order. If the count is 0 here, the thread counts itself later, and so after the
/// word became `FREE`: it doesn't park, unless another seat has acquired the book since. The release by that seat then finds it.
#[inline(always)] //+
pub(crate) fn release<B: Keeps /*~+ Drop~*/>(
    table: &SharedTable<B>,
    sleepers: &AtomicU64,
    seat: &mut TableSeat<B>,
    book: B,
)
//~     requires one { (table.now.table_id.words ≡ 1) × (table.now.table_id.slots ≡ 1) }
//~     requires of_table { seat.old.table_id ≡ table.now.table_id }
//~     requires held { (seat.old.me.0.held ≡ true) × (seat.old.me.1 ≡ (0, None) ∷ []) }
//~     requires start { seat.old.me.0.start ≡ Some (B.start book) }
//~     requires adds { Adds B.author seat.old.me.0.numbers seat.old.me.0.front (B.journal book) }
//~     ensures same { (seat.new.table_id ≡ seat.old.table_id) × (seat.new.id ≡ seat.old.id) }
//~     ensures view { seat.new.me ≡ (resting seat.old.me.0.numbers seat.old.me.0.start (B.journal book), []) }
{
    drop(table.exchange(seat, 0, Some(book)));
    table.store::<Release<B>>(seat, 0, FREE);
    if sleepers.load(SeqCst) > 0 {
        table.wake_one(0);
    }
}
