//! What the program `ttd` uses of Rattle's std and of the kit's ports.
//!
//! The library's part of the shim is in `rust/core/src/shim`, and its files are included here a
//! second time. Those in `shim/` are the program's alone: files, streams, words, locks and threads,
//! over Rust's own, and thin modules over `clap`, `indexmap` and `serde_json`. `itoa` is the crate
//! itself. All of it is safe code, written by hand. Each function names the clause of Rattle's std
//! or of the port that it stands for, but for those of locks, conditions and the start of threads.
//! In a clause `S` is what `self` points to before the call and `S'` after it.
//!
//! In Rattle all that a program asks of its system it asks of a handle, the runtime. Here the
//! handle has no bytes.
//!
//! # Where refused memory ends the process
//!
//! A refused allocation is an error, except where Rust's own library or one of the crates
//! allocates. There it ends the process as the source would, with `no memory` on standard error and
//! status 5 (`ending.rs`). What was written before is the front of the output.
//!
//! Before any output, in Rust's library:
//!
//! - What Rust's runtime allocates before `main`: two allocations, on Linux.
//! - The words of the command line: an allocation for each, and one for their list.
//! - The buffers that Rust keeps for standard input and standard output: one allocation each.
//! - A path of 384 bytes or more, which the system wants to end in a zero byte.
//! - What Rust allocates for a thread, and the place for its result (`shim/thread.rs`).
//! - On macOS, what Rust allocates for a lock and for a condition.
//!
//! In the crates:
//!
//! - `indexmap`: the growth of the table of a script's names. 1.9.2 has no `try_reserve`.
//! - `serde_json`: the node of each object in a report by `state json`, as a `Map` has no
//!   `try_reserve`. Its keys, texts and lists and the report's text can be refused.
//! - `clap`: all that it allocates for words that are refused, and for help. It isn't given words
//!   that are accepted.
//! - `itoa` allocates nothing.
//!
//! # Where Rust differs
//!
//! Rust's runtime hides that a standard stream is closed, or open the other way alone. So
//! `standard_streams.rs` looks at them before it, on Linux, macOS and the BSDs. On others a closed
//! standard input is an empty one, and output to a closed standard output is lost without a fault.

#![forbid(unsafe_code)]

#[path = "../../core/src/shim/alloc.rs"]
pub mod alloc;
#[path = "../../core/src/shim/boxed.rs"]
mod boxed;
#[path = "../../core/src/shim/casts.rs"]
mod casts;
#[path = "../../core/src/shim/fallible.rs"]
pub mod fallible;
#[path = "../../core/src/shim/memchr.rs"]
pub mod memchr;
#[path = "../../core/src/shim/slices.rs"]
mod slices;
#[path = "../../core/src/shim/snapshot.rs"]
pub mod snapshot;
#[path = "../../core/src/shim/string.rs"]
mod string;
#[path = "../../core/src/shim/vec.rs"]
mod vec;

pub mod clap;
pub mod env;
pub mod fs;
pub mod indexmap;
pub mod io;
pub mod rt;
pub mod serde_json;
pub mod sync;
pub mod thread;

use crate::{large_pages, refused, standard_streams};

pub use ::itoa;
pub use boxed::Box;
pub use casts::saturated;
pub use rt::{AllocGlobal, Input, Print};
pub use slices::SliceExt;
pub use string::String;
pub use vec::Vec;
pub(crate) use {string::format, vec::vec};

// Rattle has these as Rust has them.
pub use std::{error, fmt, hint, marker, mem};
