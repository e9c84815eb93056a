//! The life of a handle.
// From crates/rw_findings/src/lives/life.rt, with its contracts as comments. //+
use crate::shim::Vec; //+

//~ ghost use Rattle.std.specs.Prelude.{◌≡◌, ◌+◌, ◌<◌, ◌^◌, None, OnOk, slice_index_or};
//~ ghost use Rattle.rw_findings.specs.Lives.{Counted, born, with_kind};

use crate::source::rw_handles::Kind;
use crate::source::rw_law::NoMemory;
use crate::shim::alloc::Global;
//~ use std::marker::Model;

/// When and by whom a handle was made, when it was dropped, and who called with it.
//~ #[derive(Drop)]
pub struct Life {
    kind: Kind,
    made: u64,
    maker: Option<u32>,
    dropped: Option<u64>,
    // By the actor's number.
    calls: Vec<u64>,
}

//~ impl Model for Life {
//~     ghost use Rattle.rw_findings.specs.Lives.{Life as Seen};
//~
//~     ghost Value = { Seen };
//~
//~     ghost view = { λ a. record { kind = a.kind; made = a.made; maker = a.maker; dropped = a.dropped; calls = a.calls.items } };
//~ }

impl Life {
    /// Returns the life of a handle that was just made.
    pub(super) fn new(alloc: Global, kind: Kind, made: u64, maker: Option<u32>) -> Life
//~         ensures { result ≡ born kind made maker }
    {
        Life {
            kind,
            made,
            maker,
            dropped: None,
            calls: Vec::new(alloc),
        }
    }

    pub fn kind(&self) -> Kind
//~         ensures { result ≡ self.now.kind }
    {
        self.kind
    }

    /// Returns the place of the call that made it, or 0 if the channel opened with it.
    pub fn made(&self) -> u64
//~         ensures { result ≡ self.now.made }
    {
        self.made
    }

    /// Returns the actor that made it, unless the channel opened with it.
    pub fn maker(&self) -> Option<u32>
//~         ensures { result ≡ self.now.maker }
    {
        self.maker
    }

    /// Returns the place of the call that dropped it, if it was dropped.
    pub fn dropped(&self) -> Option<u64>
//~         ensures { result ≡ self.now.dropped }
    {
        self.dropped
    }

    /// Returns how many calls each actor made with it, by the actor's number. Later actors made none.
    pub fn calls(&self) -> &[u64]
//~         ensures { result.now ≡ self.now.calls }
    {
        self.calls.as_slice()
    }

    /// Counts a call of this actor.
    pub(super) fn count(&mut self, actor: u32) -> Result<(), NoMemory>
//~         requires { slice_index_or self.old.calls actor 0 < 2 ^ 63 }
//~         ensures { OnOk result (Counted self.old self.new actor) }
    {
        let actor = actor as usize;
        'each_missing: while self.calls.len() <= actor {
            self.calls.push(0)?;
        }
        self.calls[actor] += 1;
        Ok(())
    }

    /// Notes the kind that the handle has at a place, after a call with it: it was dropped there, if it has none.
    pub(super) fn see(&mut self, kind: Option<Kind>, place: u64)
//~         ensures { self.new ≡ with_kind self.old kind place }
    {
        if self.dropped.is_none() && kind.is_none() {
            self.dropped = Some(place);
        }
    }
}
