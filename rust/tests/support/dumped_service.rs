//! A service with a flight recorder, of whose dumps something is refused.

use std::fs;
use std::path::Path;
use yovanelum::{Recorder, broadcast, watch};

/// A service: a channel with texts on which receivers come and go, and a setting.
pub struct Service {
    prices: (broadcast::Sender<u64>, broadcast::Receiver<u64>),
    setting: (watch::Sender<u64>, watch::Receiver<u64>),
    /// The last value that was sent.
    value: u64,
}

impl Service {
    pub fn begin(recorder: &Recorder) -> Service {
        let service = Service {
            prices: broadcast::channel(16),
            setting: watch::channel(0),
            value: 0,
        };
        recorder.name(&service.prices.0, "prices");
        recorder.show(&service.prices.0, |price| format!("{price} EUR"));
        service
    }

    /// Makes some calls, whose replies are those that tokio documents.
    pub fn step(&mut self) {
        self.value += 1;
        let (tx, rx) = &mut self.prices;
        assert_eq!(tx.send(self.value).unwrap(), 1);
        assert_eq!(rx.try_recv(), Ok(self.value));
        assert_eq!(
            tx.subscribe().try_recv(),
            Err(broadcast::error::TryRecvError::Empty)
        );
        self.setting.0.send(self.value).unwrap();
        assert_eq!(*self.setting.1.borrow_and_update(), self.value);
    }

    /// Asserts that this journal is whole, and ends with the last call.
    pub fn assert_is_last_of(&self, journal: &Path) {
        let journal = fs::read_to_string(journal).unwrap();
        assert!(journal.ends_with(&format!(" = value {}\nend\n", self.value)));
    }
}
