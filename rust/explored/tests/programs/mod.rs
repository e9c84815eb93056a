//! Programs: with a bug of order that runs show rarely or never, and right ones.

pub mod covered;
pub mod edges;
pub mod limits;
pub mod points;
pub mod races;
pub mod right;
pub mod servers;
pub mod tasks;
pub mod threads;
pub mod timers;
pub mod workers;

use std::future::Future;
use std::thread::{self, JoinHandle};
use std::time::{Duration, Instant};
use yovanelum::named;

/// Starts a thread with a name.
fn spawn<R: Send + 'static>(name: &str, run: impl FnOnce() -> R + Send + 'static) -> JoinHandle<R> {
    let thread = thread::Builder::new().name(name.to_string());
    thread.spawn(run).unwrap()
}

/// Waits for a thread. A panic of it goes on.
fn joined<R>(thread: JoinHandle<R>) -> R {
    let joined = thread.join();
    joined.unwrap_or_else(|panicked| std::panic::resume_unwind(panicked))
}

/// Waits for a task. A panic of it goes on.
async fn ended<R>(task: tokio::task::JoinHandle<R>) -> R {
    let ended = task.await;
    ended.unwrap_or_else(|error| std::panic::resume_unwind(error.into_panic()))
}

/// Computes for some microseconds.
fn work(microseconds: u64) {
    let until = Instant::now() + Duration::from_micros(microseconds);
    while Instant::now() < until {
        std::hint::spin_loop();
    }
}

/// Runs a future as the task `test` of a runtime of one thread.
fn on_one_thread<R>(future: impl Future<Output = R>) -> R {
    let mut runtime = tokio::runtime::Builder::new_current_thread();
    let runtime = runtime.enable_all().build().unwrap();
    runtime.block_on(named("test", future))
}

/// Runs a future as the task `test` of a runtime of two workers.
fn on_two_workers<R>(future: impl Future<Output = R>) -> R {
    let mut runtime = tokio::runtime::Builder::new_multi_thread();
    let runtime = runtime.worker_threads(2).enable_all().build().unwrap();
    runtime.block_on(named("test", future))
}
