//! Books and ledgers of a small machine, journals of channels, and what these merge to.

mod books;
pub mod by_channel;
mod ledgers;
mod merges;
mod recent_calls;
mod recording;
