//! A turn for the other tasks of a thread, also for tests of the package beside tokio.

use std::future::poll_fn;
use std::task::Poll;

/// Is ready when the task is polled again. tokio's own leaves a set of tasks first.
pub async fn yield_now() {
    let mut has_yielded = false;
    poll_fn(|context| {
        if has_yielded {
            return Poll::Ready(());
        }
        has_yielded = true;
        context.waker().wake_by_ref();
        Poll::Pending
    })
    .await
}
