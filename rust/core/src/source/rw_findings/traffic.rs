//! What came on the channels of a run: the values of each, and the lives of its handles, found in one pass.
// From crates/rw_findings/src/traffic.rt, with its contracts as comments. //+

mod channel;
mod finding;

pub use channel::ChannelTraffic;
pub use finding::traffic_of;
