//! Texts of runs that are read, written and read again, and texts that no run has.

mod faults;
mod round_trips;
pub mod rows;
mod salvaging;
mod writing;
