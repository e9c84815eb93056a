//! What a broadcast channel shows.
// From crates/rw_broadcast/src/machine/readers.rt, with its contracts as comments. //+
//~ ghost use Rattle.std.specs.Prelude.{◌≡◌, length, slice_get, option_map};
//~ ghost use Rattle.rw_handles.specs.Slots.{alive, kind_at};
//~ ghost use Rattle.rw_broadcast.specs.Arithmetic.{lag, unread};
//~ ghost use Rattle.rw_broadcast.specs.Channel.{is_closed, oldest, queued};
//~ ghost use Rattle.rw_broadcast.specs.Shown.{channel_of};
//~ ghost use Rattle.rw_broadcast.specs.Machine.{position_at};

use super::Broadcast;
use crate::source::rw_broadcast::least::least_position;
use crate::source::rw_handles::Kind;

impl<V: Copy> Broadcast<V> {
    /// Returns how many values the channel retains at most.
    pub fn capacity(&self) -> u64
//~         ensures { result ≡ self.now.shown.capacity }
    {
        self.values.capacity()
    }

    /// Returns how many values were ever sent.
    pub fn sent(&self) -> u64
//~         ensures { result ≡ self.now.shown.sent }
    {
        self.values.count()
    }

    /// Returns the position of the oldest retained value.
    #[inline(always)] //+
    pub(super) fn oldest(&self) -> u64
//~         ensures { result ≡ oldest (channel_of self.now.shown) }
    {
        self.values.oldest()
    }

    /// Returns the retained value that comes after this many older ones, if there is one.
    pub fn window(&self, i: u64) -> Option<V>
//~         ensures { result ≡ slice_get self.now.shown.window i }
    {
        self.values.at(self.values.oldest().checked_add(i)?)
    }

    /// Returns the position of a live receiver: how many values were sent before the one that it receives next.
    pub fn position(&self, id: u32) -> Option<u64>
//~         ensures { result ≡ position_at (slice_get self.now.shown.slots id) }
    {
        self.handles.receiver(id)
    }

    /// Returns how many values a live receiver has yet to receive, including evicted ones.
    pub fn unread(&self, id: u32) -> Option<u64>
//~         ensures { result ≡ option_map (unread self.now.shown.sent) (position_at (slice_get self.now.shown.slots id)) }
    {
        let position = self.position(id)?;
        Some(self.values.count() - position)
    }

    /// Returns how many values were evicted before a live receiver had received them.
    pub fn lag(&self, id: u32) -> Option<u64>
//~         ensures { result ≡ option_map (lag (oldest (channel_of self.now.shown))) (position_at (slice_get self.now.shown.slots id)) }
    {
        let position = self.position(id)?;
        Some(self.oldest().saturating_sub(position))
    }

    /// Returns how many values are retained for some live receiver. It reads every handle.
    pub fn queued(&self) -> u64
//~         ensures { result ≡ queued (channel_of self.now.shown) }
    {
        match least_position(self.handles.slots()) {
            None => 0,
            Some(position) => self.sent().saturating_sub(position.max(self.oldest())),
        }
    }

    /// Returns how many handles were made, without those that `renumber` took out.
    pub fn made(&self) -> u32
//~         ensures { result ≡ length self.now.shown.slots }
    {
        self.handles.made()
    }

    /// Returns the kind of this handle, if it is alive.
    pub fn kind(&self, id: u32) -> Option<Kind>
//~         ensures { result ≡ kind_at (slice_get self.now.shown.slots id) }
    {
        self.handles.kind(id)
    }

    /// Returns how many handles of this kind are alive. It reads a count, and no handle.
    pub fn alive(&self, kind: Kind) -> u64
//~         ensures { result ≡ alive kind self.now.shown.slots }
    {
        self.handles.alive(kind)
    }

    /// Whether no sender is alive.
    #[inline(always)] //+
    pub fn closed(&self) -> bool
//~         ensures { result ≡ is_closed (channel_of self.now.shown) }
    {
        self.handles.alive(Kind::Sender) == 0
    }
}
