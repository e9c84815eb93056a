//! Recorded steps.
// From crates/rw_law/src/journal.rt, with its contracts as comments. //+

//~ ghost use Rattle.std.specs.Prelude.{◌≡◌, ⊤};

use crate::source::rw_law::machine::Reversible;
use crate::shim::alloc::AllocError;

/// A recorded step of a machine: who called, the Lamport stamp, the call, its reply, and the patch that undoes it.
pub struct Entry<M: Reversible> {
    pub actor: u32,
    pub stamp: u64,
    pub call: M::Call,
    pub reply: M::Reply,
    pub patch: M::Patch,
}

//~ impl<M: Reversible> Drop for Entry<M> {
//~     fn drop(self) {
//~         let Entry {
//~             actor: _,
//~             stamp: _,
//~             call: _,
//~             reply: _,
//~             patch: _,
//~         } = self;
//~     }
//~ }

impl<M: Reversible> /*+*/crate::shim::fallible::/*+*/Clone for Entry<M> {
//~     ghost is_clone = { λ entry copy. copy ≡ entry };

//~     ghost is_infallible = { λ _. ⊤ };

    fn clone(&self) -> Result<Self, AllocError> {
        Ok(self.copied())
    }
}

impl<M: Reversible> Entry<M> {
    /// Returns a copy. (In Rattle, a struct with a field of an associated type can't be `Copy`.)
    pub fn copied(&self) -> Entry<M>
//~         ensures { result ≡ self.now }
    {
        Entry {
            actor: self.actor,
            stamp: self.stamp,
            call: self.call,
            reply: self.reply,
            patch: self.patch,
        }
    }
}
