//! Calls that know their past: seats acquire the channels' books in turn.
//!
//! The one contract: after a call, the seat's front is a legal journal that extends all that the seat had seen, and ends with
//! that call. After two seats meet, one's front extends the other's. Start reading at `specs/Rule.antt`, which says what holds of
//! a hand-off, whichever seat has the book. Then read `hand_off.rt` and `seat_desk.rt`.
//! What stands on it: no crate: it is for users of the library.
//~ #![tactic(auto)]
// From crates/rw_seat/src/lib.rt, with its contracts as comments. //+

mod acquiring;
mod answered;
mod boxed_ledger;
mod calling;
mod closing;
mod desk_closing;
mod desk_seat;
mod hand_off;
mod lent;
mod lent_book;
mod opening;
mod rule;
mod seat_desk;
mod view;

pub use answered::Answered;
pub use desk_seat::DeskSeat;
pub use hand_off::{HandOff, HandSeat};
pub use lent::Lent;
pub use seat_desk::SeatDesk;
