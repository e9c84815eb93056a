//! A value of a channel.
// From crates/rw_findings/src/values/value.rt, with its contracts as comments. //+

/// A value that a channel had in a run.
#[derive(Clone, Copy, Debug, PartialEq)]
pub struct ChannelValue<V> {
    pub value: V,
    /// The place of the call that sent it, or 0 if the channel opened with it.
    pub since: u64,
    /// The place of the call that overwrote it, or `None` where the channel still has it.
    pub overwritten: Option<u64>,
}
