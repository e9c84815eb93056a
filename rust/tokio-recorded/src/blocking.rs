//! Whether a thread may be blocked: not where it runs tasks, since none of them would go on.

use real_tokio::runtime::Handle;
use real_tokio::sync::oneshot;

/// Panics where tokio's own calls that block a thread do, with their words. Its own `blocking_recv`
/// says so alone, so that of a value that is there is called.
pub(crate) fn check() {
    // Of a thread that runs tasks there is a handle.
    if Handle::try_current().is_ok() {
        let (tx, rx) = oneshot::channel();
        let _ = tx.send(());
        let _ = rx.blocking_recv();
    }
}
