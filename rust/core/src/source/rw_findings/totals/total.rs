//! What a receiver got of its channel, and what it missed.
// From crates/rw_findings/src/totals/total.rt, with its contracts as comments. //+

/// The counts of a receiver of a broadcast.
#[derive(Clone, Copy, Debug, PartialEq, Eq)]
pub struct BroadcastCounts {
    /// How many values it received.
    pub received: u64,
    /// How many times it was told that it lags.
    pub told: u64,
    /// How many values were overwritten before it had received them, whether it was told or not.
    pub lost: u64,
    /// Its greatest lag.
    pub worst: u64,
    /// The first place at which it lagged so much, or 0 where it never lagged.
    pub worst_place: u64,
    /// How many values it had yet to receive where the run ends, or `None` where it was dropped.
    pub unread: Option<u64>,
}

/// The counts of a receiver of a watch.
#[derive(Clone, Copy, Debug, PartialEq, Eq)]
pub struct WatchCounts {
    /// How many times `changed` told it of a change.
    pub changes: u64,
    /// How many changes came while it was there, and were never marked as seen by it.
    pub missed: u64,
    /// How many changes came while it was there, and were overwritten or left without one look at them. `borrow` and `update` look.
    pub unlooked: u64,
}

/// The counts of a receiver, by the kind of its channel.
#[derive(Clone, Copy, Debug, PartialEq, Eq)]
pub enum Counts {
    Broadcast(BroadcastCounts),
    Watch(WatchCounts),
}

/// The totals of a receiver over a run.
#[derive(Clone, Copy, Debug, PartialEq, Eq)]
pub struct Totals {
    pub channel: u32,
    pub receiver: u32,
    pub counts: Counts,
}
