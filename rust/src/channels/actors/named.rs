//! Futures whose calls are recorded under a name of their own.

use super::caller::dropping;
use super::explored::note_wait;
use super::own::OwnCaller;
use crate::channels::budget::Budgeted;
use crate::channels::turns::{explored, holds};
use crate::channels::whereabouts::SeenPolls;
use std::future::Future;
use std::pin::Pin;
use std::sync::Arc;
use std::task::{Context, Poll};

/// Wraps a future, so that its calls are recorded under this name.
///
/// Returns a future with the same output. Without a name, calls are recorded under the name of the
/// thread that makes them, so the tasks of a runtime would share it. The calls that the drop of the
/// future makes have its name too. Within another named future, the inner name is used. Futures of
/// the same name are recorded as one.
///
/// As a task of tokio it gives way to others: each of its polls has a budget of 128 calls
/// ([`guide::limits`](crate::guide::limits)).
///
/// # Examples
///
/// ```
/// use yovanelum::{Recorder, block_on, broadcast, named};
///
/// let recorder = Recorder::new();
/// let _entered = recorder.enter();
/// let (prices, mut chart) = broadcast::channel(4);
/// block_on(named("exchange", async { prices.send(101) })).unwrap();
/// assert_eq!(block_on(named("screen", chart.recv())), Ok(101));
///
/// assert!(recorder.names().contains(r#"{"0": "exchange", "1": "screen"}"#));
/// assert!(recorder.journal().unwrap().contains("2 1 0 recv 1 = value 0"));
/// ```
pub fn named<F: Future>(name: &str, future: F) -> Named<F> {
    Named {
        caller: OwnCaller::named(name),
        explored: None,
        seen: SeenPolls::default(),
        future: Some(Box::pin(future)),
    }
}

/// Future returned by [`named`].
///
/// Its output is that of the wrapped future.
///
/// # Examples
///
/// ```
/// use std::thread;
/// use yovanelum::{Named, Recorder, block_on, broadcast, named};
///
/// let recorder = Recorder::for_test("the_mailer_is_named");
/// let (bus, mut listener) = broadcast::channel(4);
/// let task: Named<_> = named("mailer", async move { listener.recv().await });
/// let runtime = thread::spawn(move || block_on(task));
/// bus.send("user created").unwrap();
/// assert_eq!(runtime.join().unwrap(), Ok("user created"));
/// assert!(recorder.names().contains(r#""mailer""#));
/// ```
#[must_use = "futures do nothing unless polled"]
pub struct Named<F> {
    caller: OwnCaller,
    // Its name in a run that is explored, where no other task has it.
    explored: Option<Arc<str>>,
    seen: SeenPolls,
    // `None` once this is dropped.
    future: Option<Pin<Box<F>>>,
}

impl<F> Named<F> {
    /// Whether a replay holds this poll back, or a run that is explored, since it isn't this
    /// future's turn.
    #[inline]
    fn is_held(&mut self, context: &Context<'_>) -> bool {
        let recorder = self.caller.recorder();
        let (name, task) = (self.caller.name(), &mut self.explored);
        name.is_some_and(|name| holds(name, task, recorder, context))
    }
}

impl<F: Future> Future for Named<F> {
    type Output = F::Output;

    fn poll(mut self: Pin<&mut Self>, context: &mut Context<'_>) -> Poll<F::Output> {
        if self.is_held(context) {
            return Poll::Pending;
        }
        let _budgeted = Budgeted::named();
        let this = &mut *self;
        let _entered = this.caller.enter();
        let future = this.future.as_mut().expect("a future that is alive");
        let polled = this
            .seen
            .poll_task(context, |context| future.as_mut().poll(context));
        if polled.is_pending() {
            note_wait(this.explored.as_ref(), &this.seen);
        }
        polled
    }
}

impl<F> Drop for Named<F> {
    /// Drops the future under its name, so that the drop's calls are recorded for its actor, also
    /// if it is cancelled.
    fn drop(&mut self) {
        if let (Some(task), Some(run)) = (&self.explored, explored()) {
            run.tasks.leave(task);
        }
        let _entered = self.caller.enter();
        dropping(|| self.seen.drop_future(|| self.future = None));
    }
}

impl<F> std::fmt::Debug for Named<F> {
    fn fmt(&self, f: &mut std::fmt::Formatter<'_>) -> std::fmt::Result {
        f.debug_struct("Named")
            .field("name", &self.caller.known_name())
            .finish_non_exhaustive()
    }
}
