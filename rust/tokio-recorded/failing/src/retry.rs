//! A connection that is tried again.

use std::fmt;

use tokio::sync::broadcast;
use tokio::sync::broadcast::error::{RecvError, TryRecvError};
use tokio::task::JoinHandle;

#[derive(Debug)]
pub struct GaveUp {
    pub attempts: u32,
}

impl fmt::Display for GaveUp {
    fn fmt(&self, f: &mut fmt::Formatter<'_>) -> fmt::Result {
        write!(f, "gave up after {} attempts", self.attempts)
    }
}

impl std::error::Error for GaveUp {}

/// Connects in the background, and tells when it has.
pub fn connect(password: &'static str, connected: broadcast::Sender<u32>) -> JoinHandle<()> {
    tokio::spawn(async move {
        if password.is_empty() {
            return;
        }
        for session in 1..=2 {
            let _ = connected.send(session);
        }
    })
}

/// The session, once there is one.
pub fn session(connected: &mut broadcast::Receiver<u32>, attempts: u32) -> Result<u32, GaveUp> {
    for _ in 0..attempts {
        match connected.try_recv() {
            Ok(session) => return Ok(session),
            Err(TryRecvError::Empty) => std::thread::yield_now(),
            Err(_) => break,
        }
    }
    Err(GaveUp { attempts })
}

/// The first session, by waiting.
pub async fn first_session(connected: &mut broadcast::Receiver<u32>) -> Result<u32, RecvError> {
    let session = connected.recv().await?;
    Ok(session)
}
