//! Opening and closing desks of two actors.

use super::opened::run_of;
use proved::Global;
use proved::rw_desk::{CloseFault, Desk, Ends, Pass};
use proved::rw_journal::Run;
use proved::rw_world::Spec;

/// A desk of two actors, their passes, and the ends of its channels.
pub struct OfTwo {
    pub desk: Desk<u64>,
    pub first: Pass<u64>,
    pub second: Pass<u64>,
    pub ends: proved::Vec<Ends>,
}

/// Opens a desk of two actors.
pub fn open_two(specs: &[Spec<u64>]) -> OfTwo {
    let (desk, mut passes, ends) = Desk::open(Global, specs, 2).unwrap();
    let second = passes.pop().unwrap();
    let first = passes.pop().unwrap();
    OfTwo {
        desk,
        first,
        second,
        ends,
    }
}

/// The run of a desk of two actors, which closes with the first one's pass and then the other.
pub fn run_of_two(open: OfTwo) -> Result<Run<u64>, CloseFault> {
    run_of(open.desk, [open.first, open.second].into_iter().collect())
}

/// The same with the passes the other way round.
pub fn run_turned(open: OfTwo) -> Result<Run<u64>, CloseFault> {
    run_of(open.desk, [open.second, open.first].into_iter().collect())
}
