//! The shim of the proved crates, where words, locks and parked threads take turns.

#[path = "../../../../rust/core/src/shim/alloc.rs"]
pub mod alloc;
pub mod atomic_table;
#[path = "../../../../rust/core/src/shim/boxed.rs"]
mod boxed;
#[path = "../../../../rust/core/src/shim/casts.rs"]
mod casts;
#[path = "../../../../rust/core/src/shim/fallible.rs"]
pub mod fallible;
#[path = "../../proved/src/shim/for_tests.rs"]
mod for_tests;
#[path = "../../../../rust/core/src/shim/slices.rs"]
mod slices;
#[path = "../../../../rust/core/src/shim/snapshot.rs"]
pub mod snapshot;
pub mod sync;
#[path = "../../../../rust/core/src/shim/vec.rs"]
mod vec;

use crate::large_pages;

pub use boxed::Box;
pub use casts::saturated;
pub use for_tests::VecExt;
pub use slices::SliceExt;
pub use std::{collections, error, fmt, hint, marker, mem};
pub use vec::Vec;
pub(crate) use vec::vec;
