//! What the proved sources use of Rattle's std and of the kit's ports: the shim of the library and of the program, and stand-ins.
//!
//! The crates that the program has for `clap`, `indexmap` and `serde_json` end the process where they are refused memory. Tests refuse each
//! request in turn, so here stand-ins return an error, and these tests need no registry of crates.

pub mod atomic_table;
pub mod clap;
mod for_tests;

#[path = "../../../../page/engine/src/shim/indexmap.rs"]
pub mod indexmap;
#[path = "../../../../page/engine/src/shim/serde_json.rs"]
pub mod serde_json;

#[path = "../../../../rust/core/src/shim/alloc.rs"]
pub mod alloc;
#[path = "../../../../rust/core/src/shim/boxed.rs"]
mod boxed;
#[path = "../../../../rust/core/src/shim/casts.rs"]
mod casts;
#[path = "../../../../rust/core/src/shim/fallible.rs"]
pub mod fallible;
#[path = "../../../../rust/core/src/shim/itoa.rs"]
pub mod itoa;
#[path = "../../../../rust/core/src/shim/collections.rs"]
mod maps;
#[path = "../../../../rust/core/src/shim/memchr.rs"]
pub mod memchr;
#[path = "../../../../rust/core/src/shim/slices.rs"]
mod slices;
#[path = "../../../../rust/core/src/shim/snapshot.rs"]
pub mod snapshot;
#[path = "../../../../rust/core/src/shim/string.rs"]
mod string;
#[path = "../../../../rust/core/src/shim/vec.rs"]
mod vec;

#[path = "../../../../rust/ttd/src/shim/env.rs"]
pub mod env;
#[path = "../../../../rust/ttd/src/shim/fs.rs"]
pub mod fs;
#[path = "../../../../rust/ttd/src/shim/io.rs"]
pub mod io;
#[path = "../../../../rust/ttd/src/shim/rt.rs"]
pub mod rt;
#[path = "../../../../rust/ttd/src/shim/sync.rs"]
pub mod sync;
#[path = "../../../../rust/ttd/src/shim/thread.rs"]
pub mod thread;

use crate::{large_pages, refused, standard_streams};

pub use boxed::Box;
pub use casts::saturated;
pub use for_tests::VecExt;
pub use rt::{AllocGlobal, Input, Print};
pub use slices::SliceExt;
pub use string::String;
pub use vec::Vec;
pub(crate) use {string::format, vec::vec};

pub use std::{error, fmt, hint, marker, mem};

pub mod collections {
    pub use super::maps::BTreeMap;
    pub use std::collections::LinkedList;
}
