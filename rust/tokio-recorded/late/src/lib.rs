//! What the programs of `tests/late.rs` share: a store behind a lock, how many orders were sent,
//! and waits.

pub mod events;

use std::sync::Arc;
use std::sync::atomic::{AtomicU32, Ordering};
use std::time::Duration;
use tokio::sync::Mutex;

/// Rows behind a lock.
#[derive(Clone, Default)]
pub struct Db(pub Arc<Mutex<Vec<u32>>>);

impl Db {
    /// Adds a row.
    pub async fn store(&self, id: u32) {
        self.0.lock().await.push(id); // @store
    }
}

/// Waits for some milliseconds.
pub async fn wait(milliseconds: u64) {
    tokio::time::sleep(Duration::from_millis(milliseconds)).await; // @wait
}

/// How many orders were sent.
#[derive(Clone, Default)]
pub struct Sent(Arc<AtomicU32>);

impl Sent {
    /// None were sent, for who sends and who counts.
    pub fn shared() -> [Sent; 2] {
        let sent = Sent::default();
        [sent.clone(), sent]
    }

    /// Counts one more.
    pub fn add(&self) {
        self.0.fetch_add(1, Ordering::SeqCst);
    }

    /// Whether there are at least `count`.
    pub fn is(&self, count: u32) -> bool {
        self.0.load(Ordering::SeqCst) >= count
    }

    /// Waits until there are at least `count`.
    pub async fn reaches(&self, count: u32) {
        while !self.is(count) {
            wait(1).await;
        }
    }

    /// Computes until there are at least `count`, without an await.
    pub fn compute_until(&self, count: u32) {
        while !self.is(count) {
            std::hint::spin_loop();
        }
    }
}
