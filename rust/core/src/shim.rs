//! What the proved sources use of Rattle's std, over Rust's own.
//!
//! The sources in `source/` are Rattle's with their contracts taken out, so they call Rattle's std,
//! where each allocation can fail. This module stands for it. It is safe code, and it was written
//! by hand: nothing of it is taken from Rattle's std. Each function names the clause of Rattle's
//! std that it stands for: the proofs rest on these clauses. In a clause `S` is what `self` points
//! to before the call and `S'` after it, and `++` joins lists.
//!
//! A refused allocation is an error everywhere, and then nothing has changed.
//!
//! The program `ttd` includes these files a second time, beside more of its own. So they name each
//! other by `super::`, and only macros, whose paths are those of the place that uses them, say
//! `$crate::shim::`.

#![forbid(unsafe_code)]

pub mod alloc;
mod boxed;
mod casts;
pub mod collections;
pub mod fallible;
pub mod itoa;
pub mod memchr;
mod slices;
pub mod snapshot;
pub mod string;
pub mod vec;

use super::large_pages;

pub use boxed::Box;
pub use casts::saturated;
pub use slices::SliceExt;
pub use string::String;
pub use vec::Vec;
pub use {string::format, vec::vec};

// Rattle has these as Rust has them. Rattle's also say what a reader has left and what a writer
// holds.
pub use std::{error, fmt, io, marker, mem};
