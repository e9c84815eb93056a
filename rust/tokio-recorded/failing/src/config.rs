//! A feed of the configuration.

use tokio::sync::watch;
use tokio::sync::watch::error::SendError;
use tokio::task::JoinHandle;

#[derive(Clone, Debug, Default, PartialEq)]
pub struct Config {
    pub version: u32,
    pub level: u8,
}

impl Config {
    pub fn version(version: u32) -> Self {
        Config { version, level: 0 }
    }
}

pub struct Feed {
    current: watch::Sender<Config>,
}

impl Feed {
    pub fn new() -> Self {
        let (current, _) = watch::channel(Config::default());
        Feed { current }
    }

    pub fn publish(&self, config: Config) -> Result<(), SendError<Config>> {
        self.current.send(config)
    }

    pub fn reader(&self) -> Reader {
        Reader {
            current: self.current.subscribe(),
            applied: Vec::new(),
        }
    }

    /// Sets the level, and tells readers if it is another one.
    pub fn set_level(&self, level: u8) -> bool {
        self.current.send_if_modified(|config| {
            config.level = level;
            config.level != level
        })
    }
}

pub struct Reader {
    current: watch::Receiver<Config>,
    pub applied: Vec<u32>,
}

impl Reader {
    pub fn apply(&mut self) {
        let version = self.current.borrow().version;
        self.applied.push(version);
    }

    pub fn is_stale(&self) -> bool {
        self.current.has_changed().unwrap_or(false)
    }

    pub async fn changed(&mut self) -> Result<(), watch::error::RecvError> {
        self.current.changed().await
    }

    /// Applies each version until the feed ends.
    pub async fn follow(mut self) -> Vec<u32> {
        while self.current.changed().await.is_ok() {
            let version = self.current.borrow_and_update().version;
            self.applied.push(version);
        }
        self.applied
    }
}

/// Loads the configuration once, and then has nothing more to do.
pub fn load(current: watch::Sender<Config>) -> JoinHandle<()> {
    tokio::spawn(async move {
        tokio::task::yield_now().await;
        let _ = current.send(Config::version(1));
    })
}
