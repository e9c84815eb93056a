//! The kinds of channels.
// From crates/rw_world/src/kinds.rt, with its contracts as comments. //+

/// The kind of a channel.
#[derive(Clone, Copy, Debug, PartialEq, Eq)]
pub enum ChannelKind {
    /// A broadcast.
    Broadcast,
    /// A watch.
    Watch,
}
