//! The values of a channel, of any type: what is received is what was sent, and each value leaves the store once.
//!
//! The one contract: a broadcast whose core knows numbers alone, with this store of the values beside it, gives each receiver the
//! value that the documented broadcast of those values replies with (`specs/Named.antt`, `specs/Following.antt`). A value is given
//! back when its last receiver has it or is gone, or when it is overwritten: at each call exactly what is no longer wanted.
//! A watch stores one value. Where its core knows numbers alone, it replies with the number of the value that the documented watch
//! of those values replies with (`specs/NamedWatch.antt`), and what is stored is the value of the last number (`specs/Watched.antt`).
//! Start reading at `specs/Stored.antt`, what a store has and what each call of it leaves. Then read `values.rt`. The laws are in
//! `laws.rt`.
//! What stands on it: the Rust crate (`rust/`).
//~ #![tactic(auto)]
// From crates/rw_values/src/lib.rt, with its contracts as comments. //+

mod laws;
mod ring;
mod values;
mod watched;

pub use laws::{by_number, counts, follows, gives_once, watch_by_number, watch_stores};
pub use values::{Kept, Values};
pub use watched::store_sent;
