//! What is stored of a broadcast while its entries are passed.
// From crates/rw_findings/src/losses/track.rt, with its contracts as comments. //+
use crate::shim::{Vec, vec}; //+

//~ ghost use Rattle.std.specs.Prelude.{◌≡◌, ◌≤◌, ◌<◌, [], ◌∷◌, ◌++◌, IfOk, OnOk, length, None, slice_index_or};
//~ ghost use Rattle.rw_broadcast.specs.Arithmetic.{retained_capacity};
//~ ghost use Rattle.rw_ring.specs.declared.ring.TheConstants.{MOST_CAPACITY};
//~ ghost use Rattle.rw_findings.specs.LossTracks.{first_position, loss_by, loss_in, next_position};
//~ ghost use Rattle.rw_findings.specs.LossTracks.{opened_track, oldest_in, subject, with_call, with_position};

use super::loss::{Loss, LossEnd};
use crate::source::rw_broadcast::{BCall, BReply};
use crate::source::rw_law::NoMemory;
use crate::shim::alloc::Global;
//~ use std::marker::Model;

/// The places of a broadcast's sends, and the positions of its receivers.
///
/// A receiver that lags by n lost the values that the last n sends overwrote. So its lag began n sends ago.
//~ #[derive(Drop)]
pub(super) struct Track {
    capacity: u64,
    sends: Vec<u64>,
    // By the handle's number. What isn't a live receiver has no position.
    positions: Vec<Option<u64>>,
}

//~ impl Model for Track {
//~     ghost use Rattle.rw_findings.specs.LossTracks.{Track as Seen};
//~
//~     ghost Value = { Seen };
//~
//~     ghost view = { λ a. record { capacity = a.capacity; sends = a.sends.items; positions = a.positions.items } };
//~ }

/// Returns how many values are retained where this many are requested.
pub(crate) fn retained(asked: u32) -> u64
//~     requires some { 0 < asked }
//~     requires small { asked ≤ MOST_CAPACITY }
//~     ensures { result ≡ retained_capacity asked }
{
    u64::from(asked).next_power_of_two()
}

/// Returns the handle that a call receives with or drops.
pub(crate) fn subject<V: Copy>(call: &BCall<V>) -> Option<u32>
//~     ensures { result ≡ subject call.now }
{
    match *call {
        BCall::TryRecv(handle) | BCall::Recv(handle) | BCall::DropHandle(handle) => Some(handle),
        _ => None,
    }
}

impl Track {
    /// Returns the track of a broadcast at its opening, with sender 0 and receiver 1.
    pub(super) fn open(alloc: Global, capacity: u32) -> Result<Track, NoMemory>
//~         requires some { 0 < capacity }
//~         requires small { capacity ≤ MOST_CAPACITY }
//~         ensures { IfOk result (λ track. track ≡ opened_track capacity) }
    {
        Ok(Track {
            capacity: retained(capacity),
            sends: Vec::new(alloc),
            positions: vec![in alloc; None, Some(0)]?,
        })
    }

    /// Returns how many handles were made.
    pub(super) fn made(&self) -> usize
//~         ensures { result ≡ length self.now.positions }
    {
        self.positions.len()
    }

    /// Returns how many values were sent.
    fn sent(&self) -> u64
//~         ensures { result ≡ length self.now.sends }
    {
        self.sends.len() as u64
    }

    /// Returns the position of the oldest retained value.
    fn oldest(&self) -> u64
//~         ensures { result ≡ oldest_in self.now }
    {
        self.sent().saturating_sub(self.capacity)
    }

    /// Returns the position of a live receiver.
    fn position(&self, receiver: u32) -> Option<u64>
//~         ensures { result ≡ slice_index_or self.now.positions receiver None }
    {
        *self.positions.get(receiver as usize)?
    }

    /// Returns the loss of a receiver that lags, with this end.
    pub(super) fn loss(&self, channel: u32, receiver: u32, end: LossEnd) -> Option<Loss>
//~         ensures { result ≡ loss_in self.now channel receiver end }
    {
        let position = self.position(receiver)?;
        let lost = self.oldest().saturating_sub(position);
        if lost == 0 {
            return None;
        }
        let from = self.sends[self.sends.len() - lost as usize];
        Some(Loss {
            channel,
            receiver,
            from,
            lost,
            end,
        })
    }

    /// Returns the loss that ends by a call with this reply, which leads to this place.
    pub(super) fn loss_by<V: Copy>(
        &self,
        channel: u32,
        call: &BCall<V>,
        reply: &BReply<V>,
        place: u64,
    ) -> Option<Loss>
//~         ensures { result ≡ loss_by self.now channel call.now reply.now place }
    {
        match *reply {
            BReply::Lagged(_) => self.loss(channel, subject(call)?, LossEnd::Told(place)),
            BReply::Dropped => self.loss(channel, subject(call)?, LossEnd::Dropped(place)),
            _ => None,
        }
    }

    /// Returns where a handle starts that this call makes, if it is a receiver.
    fn first_position<V: Copy>(&self, call: &BCall<V>) -> Option<u64>
//~         ensures { result ≡ first_position self.now call.now }
    {
        match *call {
            BCall::Subscribe(_) | BCall::Resubscribe(_) => Some(self.sent()),
            _ => None,
        }
    }

    /// Returns where a receiver is after it has received its next value.
    fn next_position(&self, receiver: u32) -> Option<u64>
//~         ensures { result ≡ next_position self.now receiver }
    {
        let position = self.position(receiver)?;
        Some(if position < self.sent() {
            position + 1
        } else {
            position
        })
    }

    /// Puts a handle at this position.
    fn put(&mut self, handle: Option<u32>, position: Option<u64>)
//~         ensures { self.new ≡ with_position self.old handle position }
    {
        if let Some(handle) = handle {
            if (handle as usize) < self.positions.len() {
                self.positions[handle as usize] = position;
            }
        }
    }

    /// Adds a send, which leads to this place.
    fn send(&mut self, place: u64) -> Result<(), NoMemory>
//~         ensures { OnOk result (self.new ≡ record self.old { sends = self.old.sends ++ place ∷ [] }) }
    {
        self.sends.push(place)?;
        Ok(())
    }

    /// Adds a handle that starts at this position, if it is a receiver.
    fn add(&mut self, position: Option<u64>) -> Result<(), NoMemory>
//~         ensures { OnOk result (self.new ≡ record self.old { positions = self.old.positions ++ position ∷ [] }) }
    {
        self.positions.push(position)?;
        Ok(())
    }

    /// Follows a call with this reply, which leads to this place.
    pub(super) fn follow<V: Copy>(
        &mut self,
        call: &BCall<V>,
        reply: &BReply<V>,
        place: u64,
    ) -> Result<(), NoMemory>
//~         ensures { OnOk result (self.new ≡ with_call self.old call.now reply.now place) }
    {
        let handle = subject(call);
        match *reply {
            BReply::Sent(_) => return self.send(place),
            BReply::New(_) => {
                let first = self.first_position(call);
                return self.add(first);
            }
            BReply::Value(_) => {
                let next = match handle {
                    Some(receiver) => self.next_position(receiver),
                    None => None,
                };
                self.put(handle, next);
            }
            BReply::Lagged(_) => {
                let oldest = self.oldest();
                self.put(handle, Some(oldest));
            }
            BReply::Dropped => self.put(handle, None),
            _ => {}
        }
        Ok(())
    }
}
