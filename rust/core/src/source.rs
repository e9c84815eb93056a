//! The proved crates of which the library is made, as Rust source: each module is a crate.
//! `./build source` writes it from tools/erasing/sources.txt.

// Many imports, names and labels are used by contracts and proofs alone, and not every function of a crate is called here.
#![allow(dead_code, unused_imports, unused_labels, unused_variables, clippy::all)]

pub mod rw_law;
pub mod rw_handles;
pub mod rw_ring;
pub mod rw_broadcast;
pub mod rw_watch;
pub mod rw_world;
pub mod rw_journal;
pub mod rw_lines;
pub mod rw_words;
pub mod rw_navigator;
pub mod rw_findings;
pub mod rw_text;
pub mod rw_values;
pub mod rw_waiting;
pub mod rw_recording;
pub mod rw_steps;
