//! Hand-offs, and desks with seats.

mod hand_offs;
mod one_thread;
mod shared;
mod threads;
mod waiting;
