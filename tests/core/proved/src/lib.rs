//! The Rust source of the proved crates, with all that is public in it: `rust/core/src/source`, over the shim of the library and of the program.
//!
//! Rattle's functions ask for an allocator and a runtime. Both have no bytes: tests give [`Global`] and [`RT`].
#![allow(
    dead_code,
    unused_imports,
    unused_labels,
    unused_macros,
    unused_variables,
    clippy::all
)]

#[path = "../../../../rust/core/src/large_pages.rs"]
mod large_pages;
#[path = "../../../../rust/ttd/src/refused.rs"]
mod refused;
#[path = "../../../../rust/ttd/src/standard_streams.rs"]
mod standard_streams;

pub mod shim;

#[rustfmt::skip]
mod source;

pub use shim::alloc::{AllocError, Global};
pub use shim::rt::HostRuntime;
pub use shim::{String, Vec};
pub use source::*;

/// What may read, write, block and start threads.
pub const RT: HostRuntime = HostRuntime;
