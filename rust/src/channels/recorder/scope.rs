//! Futures whose channels belong to a recorder.

use super::Recorder;
use std::fmt;
use std::future::Future;
use std::pin::Pin;
use std::task::{Context, Poll};

impl Recorder {
    /// Wraps a future, so that the channels which it creates belong to this recorder, whichever
    /// thread polls it.
    ///
    /// Returns a future with the same output, which may be sent if the wrapped one may. It enters
    /// the recorder while it is polled and while the wrapped future is dropped, so it is for
    /// futures what [`enter`](Recorder::enter) is for threads. What the future spawns is not part
    /// of it: wrap that too, or let the threads of its runtime enter the recorder by
    /// [`on_thread_start`](Recorder::on_thread_start).
    ///
    /// # Examples
    ///
    /// Two tests that run side by side on the threads of one runtime. Each has a journal of its
    /// own:
    ///
    /// ```
    /// use std::thread;
    /// use yovanelum::{Recorder, block_on, broadcast};
    ///
    /// async fn test() {
    ///     let (prices, mut chart) = broadcast::channel(4);
    ///     prices.send(101).unwrap();
    ///     assert_eq!(chart.recv().await, Ok(101));
    /// }
    ///
    /// let recorders = [Recorder::new(), Recorder::new()];
    /// let tests = recorders.clone().map(|recorder| {
    ///     let saved = recorder.save_on_panic("prices");
    ///     let test = recorder.scope(async move {
    ///         let _saved = saved;
    ///         test().await;
    ///     });
    ///     thread::spawn(move || block_on(test))
    /// });
    /// tests.map(|test| test.join().unwrap());
    /// // The send, the receive and the two drops.
    /// assert_eq!(recorders.map(|recorder| recorder.len()), [4, 4]);
    /// ```
    pub fn scope<F: Future>(&self, future: F) -> Scoped<F> {
        Scoped {
            recorder: self.clone(),
            future: Some(Box::pin(future)),
        }
    }
}

/// Future returned by [`Recorder::scope`].
///
/// Its output is that of the wrapped future.
///
/// # Examples
///
/// ```
/// use yovanelum::{Recorder, Scoped, block_on, broadcast};
///
/// let recorder = Recorder::new();
/// let task: Scoped<_> = recorder.scope(async { broadcast::channel::<u32>(4) });
/// let (prices, _chart) = block_on(task);
/// assert!(Recorder::of(&prices).is_some());
/// ```
#[must_use = "futures do nothing unless polled"]
pub struct Scoped<F> {
    recorder: Recorder,
    // `None` once this is dropped.
    future: Option<Pin<Box<F>>>,
}

impl<F: Future> Future for Scoped<F> {
    type Output = F::Output;

    fn poll(mut self: Pin<&mut Self>, context: &mut Context<'_>) -> Poll<F::Output> {
        let _entered = self.recorder.enter();
        let future = self.future.as_mut().expect("a future that is alive");
        future.as_mut().poll(context)
    }
}

impl<F> Drop for Scoped<F> {
    /// Drops the future within the scope, also if it is cancelled.
    fn drop(&mut self) {
        let _entered = self.recorder.enter();
        self.future = None;
    }
}

impl<F> fmt::Debug for Scoped<F> {
    fn fmt(&self, f: &mut fmt::Formatter<'_>) -> fmt::Result {
        f.debug_struct("Scoped")
            .field("recorder", &self.recorder)
            .finish_non_exhaustive()
    }
}
