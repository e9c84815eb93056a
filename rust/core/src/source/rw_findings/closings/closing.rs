//! Closings of channels.
// From crates/rw_findings/src/closings/closing.rt, with its contracts as comments. //+
use crate::shim::Vec; //+

/// A channel that was closed: its last sender was dropped by the call that leads to this place.
#[derive(Clone, Copy, Debug, PartialEq, Eq)]
pub struct Closing {
    pub channel: u32,
    pub place: u64,
}

/// A receiver that was there where its channel was closed.
#[derive(Clone, Copy, Debug, PartialEq, Eq)]
pub struct LateReader {
    pub channel: u32,
    pub receiver: u32,
    /// The place at which it was first told that the channel is closed, or `None` where it never was.
    pub told: Option<u64>,
    /// How many values it received after the close, or of how many changes it was told.
    pub read_on: u64,
}

/// The closings of a run, and the receivers that were there then.
//~ #[derive(Drop)]
pub struct Closings {
    pub channels: Vec<Closing>,
    pub readers: Vec<LateReader>,
}
