//! Events that a server sends to browsers.

use tokio::sync::{broadcast, watch};
use tokio_stream::StreamExt;
use tokio_stream::wrappers::errors::BroadcastStreamRecvError;
use tokio_stream::wrappers::{BroadcastStream, WatchStream};

pub struct Hub {
    news: broadcast::Sender<String>,
    visitors: watch::Sender<u32>,
}

impl Hub {
    pub fn new(buffer: usize) -> Self {
        let (news, _) = broadcast::channel(buffer);
        let (visitors, _) = watch::channel(0);
        Hub { news, visitors }
    }

    pub fn push(&self, line: &str) {
        let _ = self.news.send(line.to_string());
    }

    pub fn visit(&self) {
        self.visitors.send_modify(|visitors| *visitors += 1);
    }

    pub fn connect(&self) -> Connection {
        Connection {
            news: BroadcastStream::new(self.news.subscribe()),
        }
    }

    pub fn visitors(&self) -> WatchStream<u32> {
        WatchStream::new(self.visitors.subscribe())
    }
}

pub struct Connection {
    news: BroadcastStream<String>,
}

impl Connection {
    /// The next frame of the response.
    pub async fn frame(&mut self) -> Option<Result<String, BroadcastStreamRecvError>> {
        let line = self.news.next().await?;
        Some(line.map(|line| format!("data: {line}\n\n")))
    }
}
