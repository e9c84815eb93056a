//! Finds in a run what its receivers lost, what they missed, and where channels closed.
//!
//! The one contract: each function passes over a run once, and returns all that its definition in `specs/` names, and nothing
//! else. The definitions are over the documented states at the places of the run, and over the replies of its entries.
//! `losses_of` lists the losses of a run: `specs/Losses.antt` says what a loss is.
//! `totals_of` counts what each receiver received and missed, by `specs/Totals.antt`.
//! `closings_of` finds where channels were closed, by `specs/Closings.antt`.
//! `peaks_of` has the greatest lags in stretches of places (`specs/Peaks.antt`), and `lives_of` when handles were made and
//! dropped, and who called with them (`specs/Lives.antt`). `values_of` has a channel's values by number, by `specs/Values.antt`,
//! and `values_between` counts those that came between two places. `traffic_of` has the values and lives of all channels that are
//! asked for, found in one pass (`specs/Traffic.antt`).
//! `starts_of` finds where losses began, and `last_receipts_of` where receivers were last given a value (`specs/Receivers.antt`).
//! Start reading at `specs/Losses.antt`, and then at `losses/finding.rt`. Peaks, lives and values are found with a machine of one channel,
//! by `following.rt`. Closings, traffic, and where losses began, are found with a `Visitor`: no function copies the entries.
//! What stands on it: `rw_answers`, `rw_recording`.
//~ #![tactic(auto)]
// From crates/rw_findings/src/lib.rt, with its contracts as comments. //+

mod closings;
mod following;
mod handles;
mod laws;
mod lives;
mod losses;
mod peaks;
mod starts;
mod totals;
mod traffic;
mod values;

pub use closings::{Closing, Closings, LateReader, closings_of};
pub use laws::{losses_and_entries, unique_findings};
pub use lives::{Life, lives_of};
pub use losses::{Loss, LossEnd, losses_of};
pub use peaks::{Measure, Peaks, Stretches, peaks_of};
pub use starts::{LossStart, last_receipts_of, starts_of};
pub use totals::{BroadcastCounts, Counts, Totals, WatchCounts, totals_of};
pub use traffic::{ChannelTraffic, traffic_of};
pub use values::{ChannelValue, values_between, values_by, values_of};
