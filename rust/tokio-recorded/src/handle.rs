//! tokio's `Handle`, whose tasks are seen where there is a recorder.

use crate::budget::blocked_on;
use crate::spawning::{seen, seen_blocking};
use real_tokio::runtime as theirs;
use real_tokio::task::JoinHandle;
use std::future::Future;
use std::ops::Deref;
use std::panic::Location;

/// tokio's handle. It has the methods that are called most, and dereferences to tokio's own for
/// others.
#[derive(Debug, Clone)]
pub struct Handle(pub(crate) theirs::Handle);

impl Handle {
    /// As tokio's own.
    #[track_caller]
    pub fn current() -> Handle {
        Handle(theirs::Handle::current())
    }

    /// As tokio's own.
    ///
    /// # Errors
    ///
    /// Returns an error where tokio's own does.
    pub fn try_current() -> Result<Handle, theirs::TryCurrentError> {
        theirs::Handle::try_current().map(Handle)
    }

    /// As tokio's own.
    #[track_caller]
    pub fn spawn<F>(&self, future: F) -> JoinHandle<F::Output>
    where
        F: Future + Send + 'static,
        F::Output: Send + 'static,
    {
        seen!(future => self.0.spawn(future))
    }

    /// As tokio's own.
    #[track_caller]
    pub fn spawn_blocking<F, R>(&self, function: F) -> JoinHandle<R>
    where
        F: FnOnce() -> R + Send + 'static,
        R: Send + 'static,
    {
        self.0.spawn_blocking(seen_blocking(function))
    }

    /// As tokio's own.
    #[track_caller]
    pub fn block_on<F: Future>(&self, future: F) -> F::Output {
        self.0.block_on(blocked_on(future, Location::caller()))
    }

    /// As tokio's own.
    pub fn enter(&self) -> theirs::EnterGuard<'_> {
        self.0.enter()
    }
}

impl Deref for Handle {
    type Target = theirs::Handle;

    fn deref(&self) -> &theirs::Handle {
        &self.0
    }
}
