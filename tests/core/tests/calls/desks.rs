//! Passes, which record calls, and desks.

mod beside;
mod full;
mod full_size;
mod one_thread;
pub mod opened;
mod passes;
mod rows;
mod settling;
pub mod shared;
mod straying;
mod threads;
mod waking;
