//! Worked rows of both channels, recorded in a book and walked by a navigator.

mod alike;
pub mod broadcasts;
mod openings;
pub mod playing;
mod renumbering;
pub mod watches;
