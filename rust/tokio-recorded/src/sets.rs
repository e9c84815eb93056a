//! tokio's sets of tasks, which are seen where there is a recorder.

use crate::budget::held;
use crate::runtime::{Handle, Runtime};
use crate::spawning::seen;
use real_tokio::task as theirs;
use real_tokio::task::{AbortHandle, JoinError, JoinHandle, LocalEnterGuard};
use std::fmt;
use std::future::Future;
use std::ops::{Deref, DerefMut};
use std::panic::{Location, resume_unwind};
use std::pin::Pin;
use std::task::{Context, Poll};

/// tokio's set of tasks. It has tokio's methods of 1.24, and dereferences to tokio's own for
/// others.
pub struct JoinSet<T>(theirs::JoinSet<T>);

impl<T> JoinSet<T> {
    /// As tokio's own.
    pub fn new() -> JoinSet<T> {
        JoinSet(theirs::JoinSet::new())
    }

    /// As tokio's own.
    pub fn len(&self) -> usize {
        self.0.len()
    }

    /// As tokio's own.
    pub fn is_empty(&self) -> bool {
        self.0.is_empty()
    }
}

impl<T: 'static> JoinSet<T> {
    /// As tokio's own.
    #[track_caller]
    pub fn spawn<F>(&mut self, task: F) -> AbortHandle
    where
        F: Future<Output = T> + Send + 'static,
        T: Send,
    {
        seen!(task => self.0.spawn(task))
    }

    /// As tokio's own.
    #[track_caller]
    pub fn spawn_on<F>(&mut self, task: F, handle: &Handle) -> AbortHandle
    where
        F: Future<Output = T> + Send + 'static,
        T: Send,
    {
        seen!(task => self.0.spawn_on(task, &handle.0))
    }

    /// As tokio's own.
    #[track_caller]
    pub fn spawn_local<F>(&mut self, task: F) -> AbortHandle
    where
        F: Future<Output = T> + 'static,
    {
        seen!(task => self.0.spawn_local(task))
    }

    /// As tokio's own.
    #[track_caller]
    pub fn spawn_local_on<F>(&mut self, task: F, local_set: &LocalSet) -> AbortHandle
    where
        F: Future<Output = T> + 'static,
    {
        seen!(task => self.0.spawn_local_on(task, &local_set.0))
    }

    /// As tokio's own.
    ///
    /// # Errors
    ///
    /// Returns an error where tokio's own does.
    pub async fn join_next(&mut self) -> Option<Result<T, JoinError>> {
        self.0.join_next().await
    }

    /// As tokio's own.
    pub async fn shutdown(&mut self) {
        self.0.shutdown().await;
    }

    /// As tokio's own.
    pub fn abort_all(&mut self) {
        self.0.abort_all();
    }

    /// As tokio's own.
    pub fn detach_all(&mut self) {
        self.0.detach_all();
    }

    /// As tokio's own.
    pub async fn join_all(mut self) -> Vec<T> {
        let mut output = Vec::with_capacity(self.len());
        while let Some(joined) = self.0.join_next().await {
            match joined {
                Ok(value) => output.push(value),
                Err(error) if error.is_panic() => resume_unwind(error.into_panic()),
                Err(error) => panic!("{error}"),
            }
        }
        output
    }
}

impl<T> Deref for JoinSet<T> {
    type Target = theirs::JoinSet<T>;

    fn deref(&self) -> &theirs::JoinSet<T> {
        &self.0
    }
}

impl<T> DerefMut for JoinSet<T> {
    fn deref_mut(&mut self) -> &mut theirs::JoinSet<T> {
        &mut self.0
    }
}

impl<T> fmt::Debug for JoinSet<T> {
    fn fmt(&self, f: &mut fmt::Formatter<'_>) -> fmt::Result {
        self.0.fmt(f)
    }
}

impl<T> Default for JoinSet<T> {
    fn default() -> JoinSet<T> {
        JoinSet::new()
    }
}

impl<T, F> FromIterator<F> for JoinSet<T>
where
    F: Future<Output = T> + Send + 'static,
    T: Send + 'static,
{
    fn from_iter<I: IntoIterator<Item = F>>(tasks: I) -> JoinSet<T> {
        let mut set = JoinSet::new();
        tasks.into_iter().for_each(|task| drop(set.spawn(task)));
        set
    }
}

/// tokio's set of tasks of one thread. It has tokio's stable methods, and dereferences to tokio's
/// own for others.
#[derive(Debug, Default)]
pub struct LocalSet(theirs::LocalSet);

impl LocalSet {
    /// As tokio's own.
    pub fn new() -> LocalSet {
        LocalSet(theirs::LocalSet::new())
    }

    /// As tokio's own.
    #[track_caller]
    pub fn spawn_local<F>(&self, future: F) -> JoinHandle<F::Output>
    where
        F: Future + 'static,
        F::Output: 'static,
    {
        seen!(future => self.0.spawn_local(future))
    }

    /// As tokio's own.
    pub fn enter(&self) -> LocalEnterGuard {
        self.0.enter()
    }

    /// As tokio's own.
    #[track_caller]
    pub fn block_on<F: Future>(&self, runtime: &Runtime, future: F) -> F::Output {
        self.0.block_on(runtime, held(future, Location::caller()))
    }

    /// As tokio's own.
    pub async fn run_until<F: Future>(&self, future: F) -> F::Output {
        self.0.run_until(future).await
    }
}

impl Deref for LocalSet {
    type Target = theirs::LocalSet;

    fn deref(&self) -> &theirs::LocalSet {
        &self.0
    }
}

impl DerefMut for LocalSet {
    fn deref_mut(&mut self) -> &mut theirs::LocalSet {
        &mut self.0
    }
}

impl Future for LocalSet {
    type Output = ();

    fn poll(mut self: Pin<&mut Self>, context: &mut Context<'_>) -> Poll<()> {
        Pin::new(&mut self.0).poll(context)
    }
}
