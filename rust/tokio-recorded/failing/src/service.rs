//! The state of a service, and who supervises it.

use tokio::sync::watch;

#[derive(Clone, Copy, Debug, PartialEq)]
pub enum State {
    Starting,
    Ready,
    Failed,
}

pub struct Supervisor {
    state: watch::Sender<State>,
}

impl Supervisor {
    pub fn new() -> (Self, watch::Receiver<State>) {
        let (state, watched) = watch::channel(State::Starting);
        (Supervisor { state }, watched)
    }

    /// Starts the service at this port.
    pub async fn start(&self, port: u16) {
        tokio::task::yield_now().await;
        if port < 1024 {
            self.state.send_replace(State::Failed);
        } else {
            self.state.send_replace(State::Ready);
        }
    }
}
