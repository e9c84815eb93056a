//! Receives that block a thread, within a runtime and beside it.

use tokio::sync::broadcast::{self, error::RecvError};
use tokio::task;

fn received() -> Result<u8, RecvError> {
    let (tx, mut rx) = broadcast::channel(1);
    tx.send(7).unwrap();
    rx.blocking_recv()
}

#[tokio::test]
#[should_panic(expected = "Cannot block the current thread from within a runtime")]
async fn a_thread_that_runs_a_test_is_not_blocked() {
    let _ = received();
}

#[tokio::test]
async fn a_thread_that_runs_tasks_is_not_blocked() {
    let failed = tokio::spawn(async { received() }).await.unwrap_err();
    let said = failed.into_panic().downcast::<String>().unwrap();
    assert!(
        said.starts_with("Cannot block the current thread"),
        "{said}"
    );
}

#[tokio::test(flavor = "multi_thread")]
async fn a_thread_that_may_be_blocked_is() {
    assert_eq!(task::spawn_blocking(received).await.unwrap(), Ok(7));
    assert_eq!(task::block_in_place(received), Ok(7));
    let runtime = tokio::runtime::Handle::current();
    let other = std::thread::spawn(move || {
        let _entered = runtime.enter();
        received()
    });
    assert_eq!(other.join().unwrap(), Ok(7));
    assert_eq!(received_before_the_runtime(), Ok(7));
}

fn received_before_the_runtime() -> Result<u8, RecvError> {
    std::thread::spawn(received).join().unwrap()
}
