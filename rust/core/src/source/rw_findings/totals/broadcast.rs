//! What is counted of a broadcast while its entries are passed.
// From crates/rw_findings/src/totals/broadcast.rt, with its contracts as comments. //+
use crate::shim::{Vec, vec}; //+

//~ ghost use Rattle.std.specs.Prelude.{◌≡◌, ◌<◌, ◌≤◌, ◌+◌, ◌^◌, IfOk, OnOk, Option, None, length, option_map};
//~ ghost use Rattle.rw_ring.specs.declared.ring.TheConstants.{MOST_CAPACITY};
//~ ghost use Rattle.rw_findings.specs.BroadcastTallies.{after_drop, after_lag, after_value, counts_from, HasRoom, HasRoomFor, lag_of_reader, made_reader};
//~ ghost use Rattle.rw_findings.specs.BroadcastTallies.{new_reader, oldest_of, opened_broadcast, reader_in, reader_of, settled, with_call, with_reader};

use super::total::BroadcastCounts;
use crate::source::rw_findings::losses::{retained, subject};
use crate::source::rw_broadcast::{BCall, BReply};
use crate::source::rw_law::NoMemory;
use crate::shim::alloc::Global;
//~ use std::marker::Model;

/// What is counted of a receiver. What it lags now isn't among its losses yet.
#[derive(Clone, Copy)]
pub(super) struct Reader {
    // None once it was dropped.
    position: Option<u64>,
    received: u64,
    told: u64,
    lost: u64,
    worst: u64,
    worst_place: u64,
}

/// The receivers of a broadcast.
///
/// While a receiver lags, each send makes it lag by one more. So its greatest lag was reached at the last send, and nothing is
/// done for the receivers at a send.
//~ #[derive(Drop)]
pub(super) struct BroadcastTally {
    capacity: u64,
    sent: u64,
    last_send: u64,
    // By the handle's number. What never was a receiver has None.
    readers: Vec<Option<Reader>>,
}

//~ impl Model for BroadcastTally {
//~     ghost use Rattle.rw_findings.specs.BroadcastTallies.{BroadcastTally as Seen};
//~
//~     ghost Value = { Seen };
//~
//~     ghost view = { λ a. record { capacity = a.capacity; sent = a.sent; last_send = a.last_send; readers = a.readers.items } };
//~ }

/// Returns a receiver that starts at this position.
fn new_reader(position: u64) -> Reader
//~     ensures { result ≡ new_reader position }
{
    Reader {
        position: Some(position),
        received: 0,
        told: 0,
        lost: 0,
        worst: 0,
        worst_place: 0,
    }
}

impl BroadcastTally {
    /// Returns the tally of a broadcast at its opening, with sender 0 and receiver 1.
    pub(super) fn open(alloc: Global, capacity: u32) -> Result<BroadcastTally, NoMemory>
//~         requires some { 0 < capacity }
//~         requires small { capacity ≤ MOST_CAPACITY }
//~         ensures { IfOk result (λ tally. tally ≡ opened_broadcast capacity) }
    {
        Ok(BroadcastTally {
            capacity: retained(capacity),
            sent: 0,
            last_send: 0,
            readers: vec![in alloc; None, Some(new_reader(0))]?,
        })
    }

    /// Returns how many handles were made.
    pub(super) fn made(&self) -> usize
//~         ensures { result ≡ length self.now.readers }
    {
        self.readers.len()
    }

    /// Returns the position of the oldest retained value.
    fn oldest(&self) -> u64
//~         ensures { result ≡ oldest_of self.now }
    {
        self.sent.saturating_sub(self.capacity)
    }

    /// Returns a receiver, whether it was dropped or not.
    fn reader(&self, handle: u32) -> Option<Reader>
//~         ensures { result ≡ reader_in self.now handle }
    {
        *self.readers.get(handle as usize)?
    }

    /// Returns the receiver that a call receives with or drops.
    fn reader_of<V: Copy>(&self, call: &BCall<V>) -> Option<Reader>
//~         ensures { result ≡ reader_of self.now call.now }
    {
        self.reader(subject(call)?)
    }

    /// Returns how much a receiver lags, and 0 where it isn't there any more.
    fn lag(&self, reader: Reader) -> u64
//~         ensures { result ≡ lag_of_reader self.now reader }
    {
        match reader.position {
            Some(position) => self.oldest().saturating_sub(position),
            None => 0,
        }
    }

    /// Returns a receiver with what it lags now among its losses.
    fn settled(&self, reader: Reader) -> Reader
//~         requires { reader.lost + lag_of_reader self.now reader < 2 ^ 63 }
//~         ensures { result ≡ settled self.now reader }
    {
        let lag = self.lag(reader);
        let mut settled = reader;
        settled.lost += lag;
        if lag > reader.worst {
            settled.worst = lag;
            settled.worst_place = self.last_send;
        }
        settled
    }

    /// Returns a receiver after it has received a value.
    fn after_value(&self, reader: Reader) -> Reader
//~         requires { reader.received < 2 ^ 63 }
//~         ensures { result ≡ after_value self.now reader }
    {
        let mut after = reader;
        after.received += 1;
        if let Some(position) = reader.position {
            if position < self.sent {
                after.position = Some(position + 1);
            }
        }
        after
    }

    /// Returns a receiver after it was told that it lags.
    fn after_lag(&self, reader: Reader) -> Reader
//~         requires { HasRoomFor self.now reader }
//~         ensures { result ≡ after_lag self.now reader }
    {
        let mut after = self.settled(reader);
        after.position = Some(self.oldest());
        after.told += 1;
        after
    }

    /// Returns a receiver after it was dropped.
    fn after_drop(&self, reader: Reader) -> Reader
//~         requires { HasRoomFor self.now reader }
//~         ensures { result ≡ after_drop self.now reader }
    {
        let mut after = self.settled(reader);
        after.position = None;
        after
    }

    /// Returns the receiver that a call makes, if it makes one.
    fn made_reader<V: Copy>(&self, call: &BCall<V>) -> Option<Reader>
//~         ensures { result ≡ made_reader self.now call.now }
    {
        match *call {
            BCall::Subscribe(_) | BCall::Resubscribe(_) => Some(new_reader(self.sent)),
            _ => None,
        }
    }

    /// Puts a receiver under a handle's number.
    fn put(&mut self, handle: Option<u32>, reader: Option<Reader>)
//~         ensures { self.new ≡ with_reader self.old handle reader }
    {
        if let Some(handle) = handle {
            if (handle as usize) < self.readers.len() {
                self.readers[handle as usize] = reader;
            }
        }
    }

    /// Counts a call with this reply, which leads to this place.
    pub(super) fn count_call<V: Copy>(
        &mut self,
        call: &BCall<V>,
        reply: &BReply<V>,
        place: u64,
    ) -> Result<(), NoMemory>
//~         requires { HasRoom self.old }
//~         ensures { OnOk result (self.new ≡ with_call self.old call.now reply.now place) }
    {
        match *reply {
            BReply::Sent(_) => {
                self.sent += 1;
                self.last_send = place;
            }
            BReply::New(_) => {
                let reader = self.made_reader(call);
                self.readers.push(reader)?;
            }
            BReply::Value(_) => {
                let after = match self.reader_of(call) {
                    Some(reader) => Some(self.after_value(reader)),
                    None => None,
                };
                self.put(subject(call), after);
            }
            BReply::Lagged(_) => {
                let after = match self.reader_of(call) {
                    Some(reader) => Some(self.after_lag(reader)),
                    None => None,
                };
                self.put(subject(call), after);
            }
            BReply::Dropped => {
                let after = match self.reader_of(call) {
                    Some(reader) => Some(self.after_drop(reader)),
                    None => None,
                };
                self.put(subject(call), after);
            }
            _ => {}
        }
        Ok(())
    }

    /// Returns what a receiver has received and lost, if the handle ever was a receiver.
    pub(super) fn counts(&self, handle: u32) -> Option<BroadcastCounts>
//~         requires { HasRoom self.now }
//~         ensures { result ≡ option_map (counts_from self.now) (reader_in self.now handle) }
    {
        let reader = self.reader(handle)?;
        let settled = self.settled(reader);
        let unread = match reader.position {
            Some(position) => Some(self.sent.saturating_sub(position)),
            None => None,
        };
        Some(BroadcastCounts {
            received: settled.received,
            told: settled.told,
            lost: settled.lost,
            worst: settled.worst,
            worst_place: settled.worst_place,
            unread,
        })
    }
}
