//! What is stored of a channel that is closed, while its entries are passed.
// From crates/rw_findings/src/closings/closed_channel.rt, with its contracts as comments. //+
use crate::shim::Vec; //+

//~ ghost use Rattle.std.specs.Prelude.{◌≡◌, ◌<◌, IfOk, Option, length, slice_get, slice_set};
//~ ghost use Rattle.rw_findings.specs.Closings.{is_there};
//~ ghost use Rattle.rw_findings.specs.LateReaders.{after_receipt, after_told, closed_now, made_by, reader_in, ReadersHaveRoom, with_change};

use crate::source::rw_law::{NoMemory, Reversible};
use crate::source::rw_navigator::{lag_at, seen_at};
use crate::source::rw_world::{Chan, World};
use crate::shim::alloc::Global;
//~ use std::marker::Model;

/// What is stored of a receiver that was there where its channel closed.
#[derive(Clone, Copy)]
pub(super) struct Reader {
    pub(super) told: Option<u64>,
    pub(super) read_on: u64,
}

/// The receivers of a channel that was there where it closed.
//~ #[derive(Drop)]
pub(super) struct ClosedChannel {
    place: u64,
    // By the handle's number. What wasn't a live receiver has None.
    readers: Vec<Option<Reader>>,
}

//~ impl Model for ClosedChannel {
//~     ghost use Rattle.rw_findings.specs.LateReaders.{ClosedChannel as Seen};
//~
//~     ghost Value = { Seen };
//~
//~     ghost view = { λ a. record { place = a.place; readers = a.readers.items } };
//~ }

/// Whether a receiver of this number is there.
fn is_there<V: Copy>(world: &World<V>, channel: u64, receiver: u64) -> bool
//~     ensures { result ≡ is_there (⟦<World<V> as Reversible>⟧.shown world.now) channel receiver }
{
    lag_at(world, channel, receiver).is_some() || seen_at(world, channel, receiver).is_some()
}

/// Returns how many handles a channel has made.
fn made_by<V: Copy>(world: &World<V>, channel: u64) -> u32
//~     ensures { result ≡ made_by (slice_get (⟦<World<V> as Reversible>⟧.shown world.now) channel) }
{
    match world.channel(channel as usize) {
        Some(machine) => machine.made(),
        None => 0,
    }
}

impl ClosedChannel {
    /// Returns a channel that closes at this place, where this is the world.
    pub(super) fn now<V: Copy>(
        alloc: Global,
        world: &World<V>,
        channel: u64,
        place: u64,
    ) -> Result<ClosedChannel, NoMemory>
//~         ensures { IfOk result (λ closed. closed ≡ closed_now (⟦<World<V> as Reversible>⟧.shown world.now) channel place) }
    {
        let made = made_by(world, channel);
        let mut readers = Vec::with_capacity(alloc, made as usize)?;
        for receiver in 0..made {
            let reader = if is_there(world, channel, u64::from(receiver)) {
                Some(Reader {
                    told: None,
                    read_on: 0,
                })
            } else {
                None
            };
            readers.push(reader)?;
        }
        Ok(ClosedChannel { place, readers })
    }

    /// Returns the place where it closed.
    pub(super) fn place(&self) -> u64
//~         ensures { result ≡ self.now.place }
    {
        self.place
    }

    /// Returns how many handles it had made.
    pub(super) fn made(&self) -> usize
//~         ensures { result ≡ length self.now.readers }
    {
        self.readers.len()
    }

    /// Returns a receiver that was there where it closed.
    pub(super) fn reader(&self, handle: u32) -> Option<Reader>
//~         ensures { result ≡ reader_in self.now handle }
    {
        *self.readers.get(handle as usize)?
    }

    fn put(&mut self, handle: u32, reader: Option<Reader>)
//~         ensures place { self.new.place ≡ self.old.place }
//~         ensures readers { self.new.readers ≡ slice_set self.old.readers handle reader }
    {
        if (handle as usize) < self.readers.len() {
            self.readers[handle as usize] = reader;
        }
    }

    /// Counts what a receiver got, if there is one.
    pub(super) fn receive(&mut self, handle: Option<u32>)
//~         requires { ReadersHaveRoom self.old }
//~         ensures { self.new ≡ with_change after_receipt self.old handle }
    {
        if let Some(handle) = handle {
            let after = match self.reader(handle) {
                Some(reader) => Some(Reader {
                    told: reader.told,
                    read_on: reader.read_on + 1,
                }),
                None => None,
            };
            self.put(handle, after);
        }
    }

    /// Notes that a receiver was told at this place, if there is one and it wasn't told before.
    pub(super) fn tell(&mut self, handle: Option<u32>, place: u64)
//~         ensures { self.new ≡ with_change (after_told place) self.old handle }
    {
        if let Some(handle) = handle {
            let after = match self.reader(handle) {
                Some(reader) => Some(Reader {
                    told: reader.told.or(Some(place)),
                    read_on: reader.read_on,
                }),
                None => None,
            };
            self.put(handle, after);
        }
    }
}
