//! Wrappers for receivers that implement `Stream`.

mod broadcast;
mod watch;

pub use broadcast::BroadcastStream;
pub use watch::WatchStream;

/// Errors of the wrappers.
pub mod errors {
    pub use super::broadcast::BroadcastStreamRecvError;
}
