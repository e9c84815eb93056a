//! Where a loss began.
// From crates/rw_findings/src/starts/start.rt, with its contracts as comments. //+

/// A receiver at the place where its loss began.
#[derive(Clone, Copy, Debug, PartialEq, Eq)]
pub struct LossStart {
    /// The number of the first value that was lost, where the values of a channel are numbered from 0 in the order of their sends.
    /// The others follow it.
    pub first: u64,
    /// The place of its last receive of a value before, or 0 where there was none.
    pub received: u64,
}
