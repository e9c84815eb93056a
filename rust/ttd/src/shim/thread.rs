//! Threads that borrow from the function that starts them.
//!
//! In Rattle the handle of such a thread may leave the closure of its scope, in Rust it may not. So
//! here the handle shares a place with its thread, where the thread puts its result. That place is
//! an `Arc`, whose allocation can't fail without ending the process. Neither can those that Rust
//! makes for each thread itself.

use super::refused::{taking_refusals, without_refusals};
use std::any::Any;
use std::panic::{AssertUnwindSafe, catch_unwind, resume_unwind};
use std::sync::{Arc, Condvar, Mutex, PoisonError};

/// The leave to start threads and to join them.
pub trait Threads {}

/// Names what the threads may borrow. Rust needs no name for that.
#[derive(Debug)]
pub struct ScopeEnv;

pub fn scope_env() -> ScopeEnv {
    ScopeEnv
}

/// No thread could be started. Rattle's error has the closure, which is dropped here.
#[derive(Debug)]
pub struct SpawnError;

/// What starts threads.
#[derive(Debug)]
pub struct Scope<'scope, 'env: 'scope>(&'scope std::thread::Scope<'scope, 'env>);

/// The place for a thread's result, or for what it panicked with.
#[derive(Debug)]
struct Place<T> {
    result: Mutex<Option<Result<T, Box<dyn Any + Send>>>>,
    is_there: Condvar,
}

/// A thread that is still to be joined. If it is dropped, the thread runs on.
#[derive(Debug)]
pub struct JoinHandle<T>(Arc<Place<T>>);

impl<'scope> Scope<'scope, '_> {
    /// Starts a thread that calls `f`, or returns an error if the system starts none.
    pub fn spawn<T: Send + 'scope, F: FnOnce() -> T + Send + 'scope>(
        &self,
        f: F,
    ) -> Result<JoinHandle<T>, SpawnError> {
        without_refusals(|| self.start(f))
    }

    fn start<T: Send + 'scope, F: FnOnce() -> T + Send + 'scope>(
        &self,
        f: F,
    ) -> Result<JoinHandle<T>, SpawnError> {
        let place = Arc::new(Place {
            result: Mutex::new(None),
            is_there: Condvar::new(),
        });
        let own = place.clone();
        let started = std::thread::Builder::new().spawn_scoped(self.0, move || {
            let result = catch_unwind(AssertUnwindSafe(|| taking_refusals(f)));
            *own.result.lock().unwrap_or_else(PoisonError::into_inner) = Some(result);
            own.is_there.notify_all();
        });
        match started {
            Ok(_) => Ok(JoinHandle(place)),
            Err(_) => Err(SpawnError),
        }
    }
}

impl<T> JoinHandle<T> {
    /// Waits for the thread's result, and returns it. If the thread panicked, so does this.
    ///
    /// Rattle's clause: it is what the closure returned.
    pub fn join<R: Threads>(self, _: &R) -> T {
        let Place { result, is_there } = &*self.0;
        let guard = result.lock().unwrap_or_else(PoisonError::into_inner);
        let mut guard = is_there
            .wait_while(guard, |result| result.is_none())
            .unwrap_or_else(PoisonError::into_inner);
        match guard.take() {
            Some(Ok(value)) => value,
            Some(Err(panic)) => resume_unwind(panic),
            None => unreachable!("the wait ends with a result"),
        }
    }
}

/// Calls `f` with a scope, and returns once each thread that it started has returned.
///
/// Rattle's clause: `F.post f s result` for some scope `s`: the result is what `f` returned.
pub fn scope<'env, T, R: Threads>(
    _: ScopeEnv,
    _: &R,
    f: impl for<'scope> FnOnce(Scope<'scope, 'env>) -> T,
) -> T {
    without_refusals(|| std::thread::scope(|scope| taking_refusals(|| f(Scope(scope)))))
}
