//! A channel with its recorded calls, the text of the run of such channels, and what is found in a run.
//!
//! The one contract: a call of a `Recording` returns the channel's documented reply, and has its entry in the journal. A `Cut` has the
//! text of the run of its channels, whose journal has each of their entries once. `Findings` are what `rw_findings` finds in a
//! run. A `RunReader` returns each entry of a text's run, in their order. Start reading at `specs/Calls.antt`, and then read `recording.rt`.
//! What stands on it: `rw_steps`.
//~ #![tactic(auto)]
// From crates/rw_recording/src/lib.rt, with its contracts as comments. //+

mod broadcast_lead;
mod channels;
mod cut;
mod faults;
mod findings;
mod flight;
mod kept;
mod laws;
mod lead;
mod leading;
mod needs;
mod numbering;
mod past;
mod recording;
mod run_reader;
mod watch_lead;
mod window;

pub use cut::{Cut, CutFault};
pub use faults::WindowFault;
pub use findings::Findings;
pub use flight::{Flight, MOST_NUMBERED_WEIGHT};
pub use kept::Kept;
pub use laws::windows_show_history;
pub use lead::{Dozing, Lead};
pub use recording::Recording;
pub use run_reader::RunReader;
pub use crate::source::rw_broadcast::{BCall, BReply};
pub use crate::source::rw_findings::{
    BroadcastCounts, Closing, Counts, LateReader, Loss, LossEnd, LossStart, Totals, WatchCounts,
};
pub use crate::source::rw_handles::Kind;
pub use crate::source::rw_journal::{Run, TakeFault};
pub use crate::source::rw_law::{Entry, NoMemory};
pub use crate::source::rw_text::TextFault;
pub use crate::source::rw_watch::{WCall, WReply};
pub use crate::source::rw_world::{ChanCall, ChanReply, OpenFault, RowCall, Spec, World};
pub use window::Window;
