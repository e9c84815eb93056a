//! Channels by their topics.

use std::collections::HashMap;

use tokio::sync::broadcast;

#[derive(Default)]
pub struct Registry {
    topics: HashMap<String, broadcast::Sender<String>>,
}

impl Registry {
    /// The channel of a topic, which is created at its first use.
    pub fn topic(&mut self, name: &str) -> broadcast::Sender<String> {
        let topic = self.topics.entry(name.to_string()).or_insert_with(|| {
            let (topic, _) = broadcast::channel(16);
            topic
        });
        topic.clone()
    }
}

/// Collects the lines of a topic until nobody can send any more.
pub async fn collect(mut lines: broadcast::Receiver<String>) -> Vec<String> {
    let mut collected = Vec::new();
    while let Ok(line) = lines.recv().await {
        collected.push(line);
    }
    collected
}
