//! Receivers that lag and aren't asked how far.
// From crates/rw_broadcast/src/machine/dozing.rt, with its contracts as comments. //+
//~ ghost use Rattle.std.specs.Prelude.{◌≡◌};
//~ ghost use Rattle.rw_broadcast.specs.Dozing.{dozing};

use super::Broadcast;
use crate::source::rw_broadcast::calls::BReply;

impl<V: Copy> Broadcast<V> {
    /// Moves a receiver that lags to the last evicted value, so that it lags by one. By the law, each later call has the same reply,
    /// as long as none asks this receiver. Does nothing where the number is that of no live receiver.
//~     #[tactic(auto, using(crate::proofs::Dozed::none_dozes, crate::proofs::Dozed::moves_to_doze))]
    pub fn doze(&mut self, id: u32)
//~         ensures shown { self.new.shown ≡ dozing id self.old.shown }
//~         ensures limit { self.new.limit ≡ self.old.limit }
    {
        let last = self.oldest().saturating_sub(1);
        if let Some(position) = self.position(id) {
            if position < last {
                let _moved = self.move_receiver(id, position, last, BReply::Empty);
            }
        }
    }
}
