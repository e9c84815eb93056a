//! The names that a script binds.
// From crates/rw_script/src/names.rt, with its contracts as comments. //+
use crate::shim::{SliceExt, Vec}; //+

//~ ghost use Rattle.std.specs.Prelude.{◌≡◌, ◌<◌, ◌==◌, ◌&&◌, [], false, length, option_map, IfSome, OnOk, OnErr};
//~ ghost use Rattle.rw_script.specs.StepLines.{is_bound_again, number_of, with_bound};

use crate::shim::indexmap::IndexMap;
use crate::source::rw_law::NoMemory;
use crate::shim::alloc::Global;
//~ use std::marker::Model;

/// The actor that bound a name, and the channel.
#[derive(Clone, Copy)]
struct Binding {
    actor: u32,
    channel: u32,
}

impl Binding {
    /// Whether the name was bound by this actor on this channel.
    fn is_by(&self, actor: u32, channel: u32) -> bool
//~         ensures { result ≡ (self.now.actor == actor && self.now.channel == channel) }
    {
        self.actor == actor && self.channel == channel
    }
}

/// The names that a script binds, numbered 0, 1, 2, .. in the order in which they are bound.
//~ #[derive(Drop)]
pub(crate) struct Names {
    bindings: IndexMap<Vec<u8>, Binding>,
}

//~ impl Model for Names {
//~     ghost use Rattle.std.specs.Prelude.{List, map};
//~     ghost use Rattle.rw_script.specs.StepLines.{Bound};
//~
//~     ghost Value = { List Bound };
//~
//~     ghost view = { λ n. map (λ e. record { name = e.0.items; actor = e.1.actor; channel = e.1.channel }) n.bindings.entries };
//~ }

impl Names {
    pub(crate) fn new(alloc: Global) -> Names
//~         ensures { result ≡ [] }
    {
        Names {
            bindings: IndexMap::new(alloc),
        }
    }

    /// Returns the number of a name that this actor bound on this channel.
    pub(crate) fn number(&self, name: &[u8], actor: u32, channel: u32) -> Option<usize>
//~         ensures number { result ≡ number_of self.now name.now actor channel }
//~         ensures within { IfSome result (λ i. i < length self.now) }
    {
        let number = self.bindings.get_index_of(name)?;
        if self.bindings[number].is_by(actor, channel) {
            Some(number)
        } else {
            None
        }
    }

    /// Whether the name that a line binds was bound before.
    pub(crate) fn is_bound_again(&self, bound: Option<&[u8]>) -> bool
//~         ensures { result ≡ is_bound_again self.now (option_map (λ n. n.now) bound.entry) }
    {
        match bound {
            None => false,
            Some(name) => self.bindings.contains_key(name),
        }
    }

    /// Binds the name of a line, if the line binds one. The name isn't bound yet. On an error nothing has changed.
    pub(crate) fn bind(
        &mut self,
        alloc: Global,
        bound: Option<&[u8]>,
        actor: u32,
        channel: u32,
    ) -> Result<(), NoMemory>
//~         requires { is_bound_again self.old (option_map (λ n. n.now) bound) ≡ false }
//~         ensures ok { OnOk result (self.new ≡ with_bound self.old actor channel (option_map (λ n. n.now) bound.entry)) }
//~         ensures err { OnErr result (self.new ≡ self.old) }
    {
        let Some(name) = bound else {
            return Ok(());
        };
        let name = name./*~to_vec~*//*+*/try_to_vec/*+*/(alloc)?;
        self.bindings.insert(name, Binding { actor, channel })?;
        Ok(())
    }
}
