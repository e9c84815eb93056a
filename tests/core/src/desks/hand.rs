//! A handle of any kind.

use proved::rw_desk::{BRx, BTx, Ends, WRx, WTx};

/// A sender or a receiver of a broadcast or of a watch.
pub enum Hand {
    BTx(BTx),
    BRx(BRx),
    WTx(WTx),
    WRx(WRx),
}

impl Hand {
    /// Its number in its channel.
    pub fn number(&self) -> u32 {
        match self {
            Hand::BTx(sender) => sender.number(),
            Hand::BRx(receiver) => receiver.number(),
            Hand::WTx(sender) => sender.number(),
            Hand::WRx(receiver) => receiver.number(),
        }
    }
}

/// The sender and the receiver that a channel has from the beginning.
pub fn hands_of(ends: Ends) -> (Hand, Hand) {
    match ends {
        Ends::Broadcast(sender, receiver) => (Hand::BTx(sender), Hand::BRx(receiver)),
        Ends::Watch(sender, receiver) => (Hand::WTx(sender), Hand::WRx(receiver)),
    }
}
