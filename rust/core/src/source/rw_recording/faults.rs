//! Why there is no window of a channel.
// From crates/rw_recording/src/faults.rt, with its contracts as comments. //+

//~ ghost use Rattle.std.specs.Prelude.{◌≡◌};
//~ ghost use Rattle.rw_recording.specs.NoWindows.{window_fault};

use crate::source::rw_journal::TakeFault;
use crate::source::rw_law::NoMemory;
//~ use thiserror::Error;

/// Why there is no window of a channel.
#[derive(Clone, Copy, Debug, PartialEq, Eq/*~, Error~*/)]
pub enum WindowFault {
    /// An allocation failed.
//~     #[error("no memory")]
    NoMemory,
    /// The lead and the kept calls have more entries, handles or stamps than a journal may have.
//~     #[error("the window is too long")]
    TooLong,
    /// A kept call has a stamp that doesn't come after those before it.
//~     #[error("out of order")]
    OutOfOrder,
    /// A kept call is by a handle that had been dropped before the window begins.
//~     #[error("a call by a handle that was dropped before")]
    Dropped,
    /// The lead doesn't lead to what the channel was like, as the comparison finds, or needs more calls or handles than are counted for it.
    /// No channel is known for which this happens.
//~     #[error("the lead misses the channel")]
    Unlike,
}

impl From<NoMemory> for WindowFault {
//~     ghost use Rattle.std.specs.Prelude.{◌≡◌};
//~     ghost use Rattle.rw_recording.specs.declared.faults.WindowFault.{WindowFault};

//~     ghost from_gives = { λ _ fault. fault ≡ WindowFault.NoMemory };

    fn from(_error: NoMemory) -> WindowFault {
        WindowFault::NoMemory
    }
}

impl WindowFault {
    /// Returns why a window isn't made if one of its calls isn't.
    pub(crate) fn of(fault: TakeFault) -> WindowFault
//~         ensures { result ≡ window_fault fault }
    {
        match fault {
            TakeFault::JournalFull => WindowFault::TooLong,
            TakeFault::NoMemory => WindowFault::NoMemory,
            TakeFault::Waits | TakeFault::NoChannel => WindowFault::Unlike,
        }
    }
}
impl core::fmt::Display for WindowFault { //+
    fn fmt(&self, f: &mut core::fmt::Formatter<'_>) -> core::fmt::Result { //+
        match self { //+
            WindowFault::NoMemory => write!(f, "no memory"), //+
            WindowFault::TooLong => write!(f, "the window is too long"), //+
            WindowFault::OutOfOrder => write!(f, "out of order"), //+
            WindowFault::Dropped => write!(f, "a call by a handle that was dropped before"), //+
            WindowFault::Unlike => write!(f, "the lead misses the channel"), //+
        } //+
    } //+
} //+
impl core::error::Error for WindowFault {} //+
