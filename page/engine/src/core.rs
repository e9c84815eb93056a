//! The proved crates that the engine has beside those of `yovanelum-core`, and what they stand on.

#![allow(dead_code, unused_imports)]

#[path = "../../../rust/core/src/source/page.rs"]
#[rustfmt::skip]
mod page;
#[path = "../../../rust/ttd/src/refused.rs"]
mod refused;
#[path = "shim.rs"]
pub(crate) mod shim;
#[path = "../../../rust/ttd/src/standard_streams.rs"]
mod standard_streams;

/// All proved crates of the engine.
pub(crate) mod source {
    pub use super::page::*;
    pub use yovanelum_core::source::*;
}
