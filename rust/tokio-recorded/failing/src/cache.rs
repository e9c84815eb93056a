//! A cache whose entries are told to be out of date.

use std::collections::HashMap;
use std::sync::{Arc, Mutex};

use tokio::sync::broadcast;
use tokio::sync::broadcast::error::RecvError;

#[derive(Clone, Default)]
pub struct Cache {
    entries: Arc<Mutex<HashMap<String, u32>>>,
}

impl Cache {
    pub fn put(&self, key: &str, value: u32) {
        self.entries.lock().unwrap().insert(key.to_string(), value);
    }

    pub fn get(&self, key: &str) -> Option<u32> {
        self.entries.lock().unwrap().get(key).copied()
    }

    /// Removes what is told to be out of date, until nobody tells any more.
    pub async fn follow(self, mut stale: broadcast::Receiver<String>) {
        loop {
            match stale.recv().await {
                Ok(key) => {
                    self.entries.lock().unwrap().remove(&key);
                }
                Err(RecvError::Lagged(_)) => continue,
                Err(RecvError::Closed) => return,
            }
        }
    }
}

/// Tells that these entries are out of date.
pub fn invalidate(stale: &broadcast::Sender<String>, keys: &[&str]) {
    for key in keys {
        let _ = stale.send(key.to_string());
    }
}
