//! What is found in runs, as a table has it.

use proved::rw_findings::{
    BroadcastCounts, Closing, Counts, LateReader, Loss, LossEnd, Stretches, Totals, WatchCounts,
};

/// The channel that closed, and where.
pub const fn closing(channel: u32, place: u64) -> Closing {
    Closing { channel, place }
}

/// A receiver that was there where its channel closed: where it was told so, and how many values it received after that.
pub const fn late(channel: u32, receiver: u32, told: Option<u64>, read_on: u64) -> LateReader {
    LateReader {
        channel,
        receiver,
        told,
        read_on,
    }
}

/// Since when a receiver lost so many values, and how that ended.
pub const fn loss(channel: u32, receiver: u32, (from, lost): (u64, u64), end: LossEnd) -> Loss {
    Loss {
        channel,
        receiver,
        from,
        lost,
        end,
    }
}

/// The totals of a receiver of a broadcast: how many values it received, how often it was told of a loss, how many it lost, by how many it lagged most,
/// and where first, and how many it has not read.
pub const fn of_broadcast(
    channel: u32,
    receiver: u32,
    [received, told, lost, worst, worst_place]: [u64; 5],
    unread: Option<u64>,
) -> Totals {
    Totals {
        channel,
        receiver,
        counts: Counts::Broadcast(BroadcastCounts {
            received,
            told,
            lost,
            worst,
            worst_place,
            unread,
        }),
    }
}

/// The totals of a receiver of a watch: how many changes it was told, how many it missed, and how many it never looked at.
pub const fn of_watch(
    channel: u32,
    receiver: u32,
    [changes, missed, unlooked]: [u64; 3],
) -> Totals {
    Totals {
        channel,
        receiver,
        counts: Counts::Watch(WatchCounts {
            changes,
            missed,
            unlooked,
        }),
    }
}

/// So many stretches of so many places each, from a place on.
pub const fn stretches(from: u64, each: u64, count: u64) -> Stretches {
    Stretches { from, each, count }
}
