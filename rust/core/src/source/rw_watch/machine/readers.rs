//! What a watch channel shows.
// From crates/rw_watch/src/machine/readers.rt, with its contracts as comments. //+
//~ ghost use Rattle.std.specs.Prelude.{◌≡◌, ◌≢◌, Some, length, slice_get};
//~ ghost use Rattle.rw_handles.specs.Slots.{alive, kind_at};
//~ ghost use Rattle.rw_watch.specs.Channel.{is_closed};
//~ ghost use Rattle.rw_watch.specs.Machine.{mark_at, is_seen_at};

use super::Watch;
use crate::source::rw_handles::Kind;

impl<V: Copy> Watch<V> {
    /// Returns how many changes the receivers were notified of.
    pub fn version(&self) -> u64
//~         ensures { result ≡ self.now.shown.version }
    {
        self.version
    }

    /// Returns the most recent value.
    pub fn value(&self) -> V
//~         ensures { result ≡ self.now.shown.value }
    {
        self.value
    }

    /// Returns the mark of a live receiver: a version that it has seen, or `None`.
    pub fn mark(&self, id: u32) -> Option<Option<u64>>
//~         ensures { result ≡ mark_at (slice_get self.now.shown.slots id) }
    {
        self.handles.receiver(id)
    }

    /// Whether a live receiver has seen the value.
    #[inline(always)] //+
    pub fn is_seen(&self, id: u32) -> Option<bool>
//~         ensures { result ≡ is_seen_at self.now.shown.version (slice_get self.now.shown.slots id) }
    {
        let mark = self.mark(id)?;
        Some(!self.is_unseen(mark))
    }

    /// Returns how many handles were made, without those that `renumber` took out.
    pub fn made(&self) -> u32
//~         ensures { result ≡ length self.now.shown.slots }
    {
        self.handles.made()
    }

    /// Returns the kind of this handle, if it is alive. A watch has no weak sender.
    pub fn kind(&self, id: u32) -> Option<Kind>
//~         ensures kind { result ≡ kind_at (slice_get self.now.shown.slots id) }
//~         ensures strong { result ≢ Some Kind.Weak }
    {
        self.handles.kind(id)
    }

    /// Returns how many handles of this kind are alive.
    pub fn alive(&self, kind: Kind) -> u64
//~         ensures { result ≡ alive kind self.now.shown.slots }
    {
        self.handles.alive(kind)
    }

    /// Whether no sender is alive.
    #[inline(always)] //+
    pub fn closed(&self) -> bool
//~         ensures { result ≡ is_closed self.now.shown }
    {
        self.handles.alive(Kind::Sender) == 0
    }
}
