//! The proved core of `yovanelum` as Rust source, and what it stands on. It promises no API: depend
//! on `yovanelum`.
//!
//! [`source`] has a module for each proved crate. The contracts stand in its files as comments, and
//! rustc compiles the rest. The proved source names its crates by `crate::source`, and Rattle's std
//! by `crate::shim`, in each package that includes it: here, in the program `ttd`, in the engine of
//! the page, and in tests.
//!
//! A package above calls these functions and can't add to them: rustc refuses an inherent method,
//! and a trait of another crate, for a type of this one.
#![deny(unsafe_code)]
// It has what its callers call and no more.
#![allow(clippy::len_without_is_empty, clippy::new_without_default)]

pub mod large_pages;
pub mod lists;
pub mod shim;
#[rustfmt::skip]
pub mod source;
