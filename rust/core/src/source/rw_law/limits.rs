//! Limits of all machines and journals.
// From crates/rw_law/src/limits.rt, with its contracts as comments. //+

/// How many actors there can be. An actor's number is below this.
pub const MOST_ACTORS: u32 = 64;

/// The greatest stamp of an entry: 2^62.
pub const MOST_STAMP: u64 = 4_611_686_018_427_387_904;

/// The greatest weight, and the greatest limit, that a machine can have: 2^62.
pub const MOST_WEIGHT: u64 = 4_611_686_018_427_387_904;
