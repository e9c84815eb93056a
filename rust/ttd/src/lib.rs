//! The program `ttd` as a library, so that tests call it in their own process. It promises no API.
//!
//! `source` is the proved source with its contracts as comments. `shim` replaces Rattle's std by
//! Rust's, and the kit's ports by the crates that they are ports of.

mod ending;
#[path = "../../core/src/large_pages.rs"]
mod large_pages;
mod refused;
// It has what the sources call and no more.
#[allow(clippy::new_without_default)]
#[doc(hidden)]
pub mod shim;
#[doc(hidden)]
#[rustfmt::skip]
#[path = "../../core/src/source/program.rs"]
pub mod source;
mod standard_streams;

#[doc(hidden)]
pub use ending::Ending;

/// Runs the program on the process's words, files and streams, and returns its exit status.
pub fn run() -> u8 {
    refused::taking_refusals(|| {
        source::rw_program::run(&shim::rt::HostRuntime, &mut std::io::stderr())
    })
}
