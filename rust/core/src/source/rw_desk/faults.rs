//! Why a desk refuses.
// From crates/rw_desk/src/faults.rt, with its contracts as comments. //+

use crate::source::rw_world::OpenFault;
//~ use thiserror::Error;

/// Why a call isn't made. The first of these that holds is returned, and nothing has changed.
#[derive(Clone, Copy, Debug, PartialEq, Eq/*~, Error~*/)]
pub enum DeskFault {
    /// There is no such channel, or it is of the other kind.
//~     #[error("no such channel")]
    NoChannel,
    /// The channel's journal has 1,048,576 entries, or the stamp would pass 2^62.
//~     #[error("journal full")]
    JournalFull,
    /// An allocation failed.
//~     #[error("no memory")]
    NoMemory,
    /// The call would wait.
//~     #[error("would wait")]
    Waits,
}

/// Why a desk isn't opened. The first of these that holds is returned.
#[derive(Clone, Copy, Debug, PartialEq, Eq/*~, Error~*/)]
pub enum DeskOpenFault {
    /// There is no actor, or there are more than 64.
//~     #[error("bad number of actors")]
    BadActors,
    /// No world is opened from the specs.
//~     #[error("{0}")]
    World(OpenFault),
}

/// Why a desk isn't closed. `Stranger` comes first. The desk and the passes are returned with the fault.
#[derive(Clone, Copy, Debug, PartialEq, Eq/*~, Error~*/)]
pub enum CloseFault {
    /// The least actor of the desk that doesn't have exactly one pass, or else the number of a pass that is no actor's.
//~     #[error("not exactly one pass of actor {0}")]
    Stranger(u32),
    /// An entry of this actor is out of order, at this place of its channel. Or else this is the least actor whose receipts
    /// aren't its entries, and the number of the first receipt at which they differ.
//~     #[error("actor {0} strayed at {1}")]
    Strayed(u32, u64),
    /// An allocation failed.
//~     #[error("no memory")]
    NoMemory,
}
impl core::fmt::Display for DeskFault { //+
    fn fmt(&self, f: &mut core::fmt::Formatter<'_>) -> core::fmt::Result { //+
        match self { //+
            DeskFault::NoChannel => write!(f, "no such channel"), //+
            DeskFault::JournalFull => write!(f, "journal full"), //+
            DeskFault::NoMemory => write!(f, "no memory"), //+
            DeskFault::Waits => write!(f, "would wait"), //+
        } //+
    } //+
} //+
impl core::error::Error for DeskFault {} //+
impl core::fmt::Display for DeskOpenFault { //+
    fn fmt(&self, f: &mut core::fmt::Formatter<'_>) -> core::fmt::Result { //+
        match self { //+
            DeskOpenFault::BadActors => write!(f, "bad number of actors"), //+
            DeskOpenFault::World(f0, ..) => write!(f, "{f0}"), //+
        } //+
    } //+
} //+
impl core::error::Error for DeskOpenFault {} //+
impl core::fmt::Display for CloseFault { //+
    fn fmt(&self, f: &mut core::fmt::Formatter<'_>) -> core::fmt::Result { //+
        match self { //+
            CloseFault::Stranger(f0, ..) => write!(f, "not exactly one pass of actor {f0}"), //+
            CloseFault::Strayed(f0, f1, ..) => write!(f, "actor {f0} strayed at {f1}"), //+
            CloseFault::NoMemory => write!(f, "no memory"), //+
        } //+
    } //+
} //+
impl core::error::Error for CloseFault {} //+
