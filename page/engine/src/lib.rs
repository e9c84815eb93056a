//! The engine of the page: what of the Rust crate reads a run, with exports of its own. `./build
//! page` compiles it for WebAssembly.
//!
//! It stands on `yovanelum-reader`: so the page, `yovanelum why` and the adapter read a run by the
//! same functions. Of the proved crates it has those of `yovanelum-core`, those of `ttd`'s console,
//! and `rw_answers`.

mod beside;
mod columns;
mod core;
pub mod engine;
mod exports;
mod found;
mod levels;
#[cfg(target_family = "wasm")]
mod memory;
mod opening;
pub mod part;
mod search;
mod states;

use crate::core::{shim, source};

/// The proved functions whose lines the tests compare with what the page gets.
pub mod proved {
    pub use crate::shim::{Vec, alloc::Global};
    pub use crate::source::rw_answers::Opened;
    pub use crate::source::rw_findings::Stretches;
}
