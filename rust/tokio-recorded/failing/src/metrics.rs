//! What is measured.

use std::collections::HashMap;
use std::sync::{Arc, Mutex};

use tokio::sync::{Notify, broadcast, watch};
use tokio::task::JoinHandle;

/// Gathers samples until there are no more.
pub async fn gather(mut samples: broadcast::Receiver<u64>) -> Vec<u64> {
    let mut gathered = Vec::new();
    while let Ok(sample) = samples.recv().await {
        gathered.push(sample);
    }
    gathered
}

/// The value that 99 of 100 samples aren't above.
pub fn p99(samples: &[u64]) -> u64 {
    let mut sorted = samples.to_vec();
    sorted.sort_unstable();
    sorted[sorted.len() / 2]
}

/// Counts by labels.
#[derive(Default)]
pub struct Counters {
    counts: Arc<Mutex<HashMap<String, u64>>>,
}

impl Counters {
    /// Counts each label that comes.
    pub fn follow(&self, mut labels: broadcast::Receiver<String>) -> JoinHandle<()> {
        let counts = Arc::clone(&self.counts);
        tokio::spawn(async move {
            while let Ok(label) = labels.recv().await {
                *counts.lock().unwrap().entry(label).or_default() += 1;
            }
        })
    }

    pub fn count(&self, label: &str) -> u64 {
        self.counts.lock().unwrap()[label]
    }
}

/// Writes what was counted to the disk, when it is asked to.
#[derive(Default)]
pub struct Exporter {
    asked: Notify,
    written: Notify,
}

impl Exporter {
    pub async fn run(&self) {
        self.asked.notified().await;
    }

    pub async fn flush(&self) {
        self.asked.notify_one();
        self.written.notified().await;
    }
}

/// A gauge of open connections.
pub fn track(open: watch::Sender<u32>, changes: Vec<i32>) -> JoinHandle<()> {
    tokio::spawn(async move {
        for change in changes {
            let now = *open.borrow();
            open.send_replace(if change < 0 {
                now - change.unsigned_abs()
            } else {
                now + change as u32
            });
        }
    })
}
