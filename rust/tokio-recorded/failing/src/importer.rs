//! Rows of a file, announced as they are read.

use tokio::sync::{broadcast, mpsc};
use tokio::task::JoinHandle;

/// Announces each row, and ends with the file.
pub fn import(rows: Vec<&'static str>, announced: broadcast::Sender<u32>) -> JoinHandle<()> {
    tokio::spawn(async move {
        for row in rows {
            let id = row.trim().parse().expect("a row is a number");
            let _ = announced.send(id);
            tokio::task::yield_now().await;
        }
    })
}

/// Announces rows as they come over the net.
pub fn import_stream(
    mut rows: mpsc::Receiver<u32>,
    announced: broadcast::Sender<u32>,
) -> JoinHandle<()> {
    tokio::spawn(async move {
        while let Some(id) = rows.recv().await {
            let _ = announced.send(id);
        }
    })
}

/// Stops an import that takes too many rows.
pub struct Limit {
    pub rows: usize,
}

impl Limit {
    pub fn check(&self, done: usize, import: &JoinHandle<()>) {
        if done >= self.rows {
            import.abort();
        }
    }
}
