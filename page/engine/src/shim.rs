//! What the proved sources use of Rattle's std and of the kit's ports: the shim of the library and
//! of the program, and stand-ins for `indexmap` and `serde_json`, so that the engine is built
//! without a registry of crates, and each request of memory can be refused.

#![forbid(unsafe_code)]

#[path = "shim/indexmap.rs"]
pub mod indexmap;
#[path = "shim/serde_json.rs"]
pub mod serde_json;

#[path = "../../../rust/ttd/src/shim/io.rs"]
pub mod io;
#[path = "../../../rust/ttd/src/shim/rt.rs"]
pub mod rt;
#[path = "../../../rust/ttd/src/shim/sync.rs"]
pub mod sync;
#[path = "../../../rust/ttd/src/shim/thread.rs"]
pub mod thread;

use super::{refused, standard_streams};

pub use rt::{AllocGlobal, Input, Print};
pub use yovanelum_core::shim::{
    Box, SliceExt, String, Vec, alloc, collections, fallible, format, itoa, memchr, saturated,
    snapshot, string, vec,
};

// Rattle has these as Rust has them.
pub use std::{error, fmt, hint, marker, mem};
