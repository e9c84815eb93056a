//! tokio's `runtime`, with a builder and a runtime whose threads follow the one that builds.
//!
//! So `#[tokio::test(flavor = "multi_thread")]` needs no other line, nor does `Runtime::new()`: a
//! recorder that the test creates is entered on the threads of its runtime too, where its tasks
//! run. Tasks that aren't known by the place that spawns them are told apart by their ids, where
//! this tokio has `task::try_id`. An older one has it under `--cfg tokio_unstable` alone: there
//! they have numbers of this package.

pub use crate::handle::Handle;
pub use real_tokio::runtime::*;

use crate::budget::blocked_on;
use crate::spawning::{seen, seen_blocking};
use crate::tasks;
use real_tokio::runtime as theirs;
use real_tokio::task::JoinHandle;
use std::future::Future;
use std::io;
use std::ops::{Deref, DerefMut};
use std::panic::Location;
use std::time::Duration;
use yovanelum::follow_this_thread;

/// tokio's builder. The threads of its runtime have the recorder that is entered on the thread
/// which has created the builder.
///
/// It has tokio's stable methods, and dereferences to tokio's own for all others. After one of
/// those in a chain, `on_thread_start` replaces the function by which the threads follow, and
/// `build` returns tokio's own runtime.
#[derive(Debug)]
pub struct Builder(theirs::Builder);

/// Methods that set something, and return the builder for the next call.
macro_rules! settings {
    ($($(#[$cfg:meta])* $method:ident($($arg:ident: $type:ty)?);)*) => {
        $(/// As tokio's own.
        $(#[$cfg])*
        pub fn $method(&mut self $(, $arg: $type)?) -> &mut Builder {
            self.0.$method($($arg)?);
            self
        })*
    };
}

impl Builder {
    /// As tokio's own.
    pub fn new_current_thread() -> Builder {
        Builder::following(theirs::Builder::new_current_thread())
    }

    /// As tokio's own.
    #[cfg(feature = "rt-multi-thread")]
    pub fn new_multi_thread() -> Builder {
        Builder::following(theirs::Builder::new_multi_thread())
    }

    fn following(mut builder: theirs::Builder) -> Builder {
        tasks::tell_apart();
        builder.on_thread_start(follow_this_thread());
        Builder(builder)
    }

    /// As tokio's own. The threads follow first.
    pub fn on_thread_start(&mut self, f: impl Fn() + Send + Sync + 'static) -> &mut Builder {
        let follow = follow_this_thread();
        self.0.on_thread_start(move || {
            follow();
            f();
        });
        self
    }

    settings! {
        enable_all();
        worker_threads(val: usize);
        max_blocking_threads(val: usize);
        thread_name(val: impl Into<String>);
        thread_name_fn(f: impl Fn() -> String + Send + Sync + 'static);
        thread_stack_size(val: usize);
        thread_keep_alive(duration: Duration);
        on_thread_stop(f: impl Fn() + Send + Sync + 'static);
        on_thread_park(f: impl Fn() + Send + Sync + 'static);
        on_thread_unpark(f: impl Fn() + Send + Sync + 'static);
        global_queue_interval(val: u32);
        event_interval(val: u32);
        #[cfg(any(feature = "net", all(unix, any(feature = "process", feature = "signal"))))]
        enable_io();
        #[cfg(any(feature = "net", all(unix, any(feature = "process", feature = "signal"))))]
        max_io_events_per_tick(capacity: usize);
        #[cfg(feature = "time")]
        enable_time();
        #[cfg(feature = "test-util")]
        start_paused(start_paused: bool);
    }

    /// As tokio's own.
    pub fn build(&mut self) -> io::Result<Runtime> {
        let runtime = self.0.build()?;
        let handle = Handle(runtime.handle().clone());
        Ok(Runtime { runtime, handle })
    }
}

impl Deref for Builder {
    type Target = theirs::Builder;

    fn deref(&self) -> &theirs::Builder {
        &self.0
    }
}

impl DerefMut for Builder {
    fn deref_mut(&mut self) -> &mut theirs::Builder {
        &mut self.0
    }
}

/// tokio's runtime. Its threads have the recorder that is entered on the thread which has built it.
/// It dereferences to tokio's own.
#[derive(Debug)]
pub struct Runtime {
    runtime: theirs::Runtime,
    handle: Handle,
}

impl Runtime {
    /// As tokio's own.
    #[cfg(feature = "rt-multi-thread")]
    pub fn new() -> io::Result<Runtime> {
        Builder::new_multi_thread().enable_all().build()
    }

    /// As tokio's own.
    pub fn handle(&self) -> &Handle {
        &self.handle
    }

    /// As tokio's own.
    #[track_caller]
    pub fn spawn<F>(&self, future: F) -> JoinHandle<F::Output>
    where
        F: Future + Send + 'static,
        F::Output: Send + 'static,
    {
        seen!(future => self.runtime.spawn(future))
    }

    /// As tokio's own.
    #[track_caller]
    pub fn spawn_blocking<F, R>(&self, func: F) -> JoinHandle<R>
    where
        F: FnOnce() -> R + Send + 'static,
        R: Send + 'static,
    {
        self.runtime.spawn_blocking(seen_blocking(func))
    }

    /// As tokio's own.
    #[track_caller]
    pub fn block_on<F: Future>(&self, future: F) -> F::Output {
        self.runtime
            .block_on(blocked_on(future, Location::caller()))
    }

    /// As tokio's own.
    pub fn shutdown_timeout(self, duration: Duration) {
        self.runtime.shutdown_timeout(duration);
    }

    /// As tokio's own.
    pub fn shutdown_background(self) {
        self.runtime.shutdown_background();
    }
}

impl Deref for Runtime {
    type Target = theirs::Runtime;

    fn deref(&self) -> &theirs::Runtime {
        &self.runtime
    }
}

impl DerefMut for Runtime {
    fn deref_mut(&mut self) -> &mut theirs::Runtime {
        &mut self.runtime
    }
}
