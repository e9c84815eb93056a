//! The proved crates that the engine of the page has beside the library's, as Rust source: each module is a crate.
//! `./build source` writes it from tools/erasing/sources.txt.

// Many imports, names and labels are used by contracts and proofs alone, and not every function of a crate is called here.
#![allow(dead_code, unused_imports, unused_labels, unused_variables, clippy::all)]

pub mod rw_desk;
pub mod rw_script;
pub mod rw_blocks;
pub mod rw_console;
pub mod rw_answers;
