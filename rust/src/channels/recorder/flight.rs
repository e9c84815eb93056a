//! Flight recorders: the last calls of each channel, for as long as a service runs, and the events
//! that call for a dump of them.

mod dump;
mod dumping;
mod request;

pub use dump::{Dump, Dumps};
pub(crate) use dumping::DumpSettings;
pub(crate) use request::{DumpRequest, Why};

use crate::channels::backend::MOST_CHUNK;
use dumping::Dumping;
use std::io;
use std::path::PathBuf;
use yovanelum_core::large_pages;

/// Writes a dump, and returns the path of its journal.
pub(crate) type WriteDump = fn(&mut DumpRequest) -> io::Result<PathBuf>;

/// What a flight recorder has beside what each recorder has.
pub(crate) struct Flight {
    /// How many calls of each channel are kept at least.
    pub(super) calls_per_channel: usize,
    pub(crate) dumping: Dumping,
    write: WriteDump,
}

impl Flight {
    pub(super) fn new(calls_per_channel: usize, write: WriteDump) -> Flight {
        large_pages::begin_to_give_back();
        Flight {
            calls_per_channel: calls_per_channel.clamp(1, MOST_CHUNK),
            dumping: Dumping::default(),
            write,
        }
    }
}
