//! Tasks, which are seen where there is a recorder: each is known by the place that spawns it, and
//! where a test is explored, its polls are chosen. Without one, they are tokio's own, as they are
//! given, but for a budget and a number where tokio offers none.

use pin_project_lite::pin_project;
use real_tokio::task::{self, JoinHandle};
use std::future::Future;
use std::pin::Pin;
use std::task::{Context, Poll};
use yovanelum::{SpawnedTask, blocking_task};

pin_project! {
    /// The future of a task that a recorder sees.
    pub(crate) struct Seen<F> {
        task: SpawnedTask,
        // `None` once this is dropped.
        #[pin]
        future: Option<F>,
    }

    impl<F> PinnedDrop for Seen<F> {
        fn drop(this: Pin<&mut Self>) {
            let mut this = this.project();
            this.task.drop_future(|| this.future.set(None));
        }
    }
}

impl<F> Seen<F> {
    pub(crate) fn new(task: SpawnedTask, future: F) -> Seen<F> {
        let future = Some(future);
        Seen { task, future }
    }
}

impl<F: Future> Future for Seen<F> {
    type Output = F::Output;

    #[inline]
    fn poll(self: Pin<&mut Self>, context: &mut Context<'_>) -> Poll<F::Output> {
        let this = self.project();
        let future = this.future.as_pin_mut().expect("a future that is alive");
        this.task.poll(context, |context| future.poll(context))
    }
}

/// Spawns a future by a method of tokio's. Where a recorder sees it, it is wrapped before. In both
/// cases it is wrapped where it needs a budget of yovanelum's, or a number of this package. It is
/// for functions that track their caller, whose place tells the task from others.
macro_rules! seen {
    ($future:ident => $spawn:expr) => {
        match (
            yovanelum::spawned_task(&$future),
            crate::spawning::is_told(),
        ) {
            (Some(task), true) => {
                let $future = crate::spawning::Seen::new(task, $future);
                $spawn
            }
            (Some(task), false) => {
                let $future = crate::spawning::Seen::new(task, $future);
                let $future = crate::tasks::numbered(yovanelum::budgeted($future));
                $spawn
            }
            (None, true) => $spawn,
            (None, false) => {
                let $future = crate::tasks::numbered(yovanelum::budgeted($future));
                $spawn
            }
        }
    };
}

pub(crate) use seen;

/// Whether this tokio says which task is the current one, and offers its budget.
#[inline]
pub(crate) fn is_told() -> bool {
    crate::budget::is_offered() && crate::tasks::are_told()
}

/// Wraps a function that may block its thread, so that it is known by the place that gives it.
#[track_caller]
pub(crate) fn seen_blocking<R>(function: impl FnOnce() -> R) -> impl FnOnce() -> R {
    let task = blocking_task();
    move || match task {
        Some(task) => task.run(function),
        None => function(),
    }
}

/// As tokio's own.
#[track_caller]
pub fn spawn<F>(future: F) -> JoinHandle<F::Output>
where
    F: Future + Send + 'static,
    F::Output: Send + 'static,
{
    seen!(future => task::spawn(future))
}

/// As tokio's own.
#[track_caller]
pub fn spawn_local<F>(future: F) -> JoinHandle<F::Output>
where
    F: Future + 'static,
    F::Output: 'static,
{
    seen!(future => task::spawn_local(future))
}

/// As tokio's own.
#[track_caller]
pub fn spawn_blocking<F, R>(f: F) -> JoinHandle<R>
where
    F: FnOnce() -> R + Send + 'static,
    R: Send + 'static,
{
    task::spawn_blocking(seen_blocking(f))
}
