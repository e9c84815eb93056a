//! Seats and desks in every order of their threads' steps.
//!
//! `rw_seat` and `rw_desk` are compiled as they are, but for smaller numbers ([`bugs`]), over a shim whose words, locks and parked
//! threads take turns ([`orders`]). So a search goes through all orders of these steps, and finds whether one of them ends with
//! threads that sleep although one could go on, or has a thread that goes on and on while nothing changes. No contract can say either.
//!
//! All steps have one order here. That stands on `SeqCst`, and on the kit's tables.

#[allow(dead_code)]
#[path = "../../../../rust/core/src/large_pages.rs"]
mod large_pages;

#[allow(dead_code)]
#[path = "../bugs.rs"]
pub mod bugs;
pub mod orders;
mod played;
#[allow(dead_code, unused_imports, unused_macros, clippy::all)]
pub mod shim;

/// The proved crates below desks and seats.
#[allow(dead_code, unused_imports, unused_labels, unused_variables, clippy::all)]
#[rustfmt::skip]
pub mod source {
    include!(concat!(env!("OUT_DIR"), "/source.rs"));
}

/// Desks and seats as they are, in `right`, and with each bug. Beside them is what is played with them.
#[allow(dead_code, unused_imports, unused_labels, unused_mut, unused_variables, clippy::all)]
#[rustfmt::skip]
pub mod versions {
    include!(concat!(env!("OUT_DIR"), "/versions.rs"));
}
