//! tokio, with [`sync::broadcast`] and [`sync::watch`] recorded by yovanelum.
//!
//! Everything else is tokio's own, but the [`runtime::Runtime`] and its builder: their threads
//! follow the test. What spawns tasks is wrapped too ([`spawn`], a runtime and its handle, and sets
//! of tasks), so that each has a name of its own in the test's journal, and is seen where a test is
//! explored. There timers ([`time`]) end by a clock that stands still while tasks are held. Types,
//! functions and macros are re-exported, and so is what a later version adds.

pub use real_tokio::*;

#[cfg(all(feature = "rt", feature = "sync"))]
mod blocking;
#[cfg(all(feature = "rt", feature = "sync"))]
mod budget;
#[cfg(all(feature = "rt", feature = "sync"))]
mod handle;
#[cfg(all(feature = "rt", feature = "sync", feature = "time"))]
mod interval;
#[cfg(feature = "sync")]
mod points;
#[cfg(all(feature = "rt", feature = "sync"))]
pub mod runtime;
#[cfg(all(feature = "rt", feature = "sync"))]
mod sets;
#[cfg(all(feature = "rt", feature = "sync"))]
mod spawning;
#[cfg(all(feature = "rt", feature = "sync"))]
mod tasks;
#[cfg(all(feature = "rt", feature = "sync", feature = "time"))]
mod timers;

#[cfg(all(feature = "rt", feature = "sync"))]
pub use spawning::spawn;

/// tokio's `task`, with functions and sets that spawn tasks which are seen where there is a
/// recorder.
#[cfg(all(feature = "rt", feature = "sync"))]
pub mod task {
    pub use crate::sets::{JoinSet, LocalSet};
    pub use crate::spawning::{spawn, spawn_blocking, spawn_local};
    pub use real_tokio::task::*;
}

/// tokio's `time`, with timers that stand still where a run that is explored holds its tasks.
#[cfg(all(feature = "rt", feature = "sync", feature = "time"))]
pub mod time {
    pub use crate::interval::{Interval, interval, interval_at};
    pub use crate::timers::{Sleep, Timeout, sleep, sleep_until, timeout, timeout_at};
    pub use real_tokio::time::*;
}

/// tokio's `sync`, with the two channels of yovanelum.
#[cfg(feature = "sync")]
pub mod sync {
    pub use real_tokio::sync::*;

    /// tokio's `broadcast`, recorded.
    pub mod broadcast {
        // A name that is here is taken before one of a glob.
        pub use yovanelum::broadcast::*;

        /// As tokio's own.
        #[track_caller]
        pub fn channel<T: Clone>(capacity: usize) -> (Sender<T>, Receiver<T>) {
            yovanelum::record_tests();
            yovanelum::broadcast::channel(capacity)
        }
    }

    /// tokio's `mpsc`.
    pub mod mpsc {
        pub use real_tokio::sync::mpsc::*;

        /// As tokio's own.
        ///
        /// # Panics
        ///
        /// Panics where tokio's own does.
        #[track_caller]
        pub fn channel<T>(buffer: usize) -> (Sender<T>, Receiver<T>) {
            crate::points::set();
            real_tokio::sync::mpsc::channel(buffer)
        }

        /// As tokio's own.
        #[track_caller]
        pub fn unbounded_channel<T>() -> (UnboundedSender<T>, UnboundedReceiver<T>) {
            crate::points::set();
            real_tokio::sync::mpsc::unbounded_channel()
        }
    }

    /// tokio's `oneshot`.
    pub mod oneshot {
        pub use real_tokio::sync::oneshot::*;

        /// As tokio's own.
        #[track_caller]
        pub fn channel<T>() -> (Sender<T>, Receiver<T>) {
            crate::points::set();
            real_tokio::sync::oneshot::channel()
        }
    }

    /// tokio's `watch`, recorded.
    pub mod watch {
        pub use yovanelum::watch::*;

        /// As tokio's own.
        #[track_caller]
        pub fn channel<T>(init: T) -> (Sender<T>, Receiver<T>) {
            yovanelum::record_tests();
            yovanelum::watch::channel(init)
        }
    }
}
