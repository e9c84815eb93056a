//! Books and runs of worlds.

mod closings;
mod debuggers;
mod drafts;
mod indexes;
mod lives;
mod losses;
mod peaks;
mod totals;
mod traffic;
mod values;
mod walks;
mod worlds;
