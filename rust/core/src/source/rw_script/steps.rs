//! Steps of a script.
// From crates/rw_script/src/steps.rt, with its contracts as comments. //+

use crate::source::rw_world::ChanCall;

/// A call that a line of a script makes.
#[derive(Clone, Copy)]
pub struct ScriptStep {
    /// The number of the line, counted from 1.
    pub line: u64,
    pub actor: u32,
    pub channel: u32,
    /// The call. Its handle is 0 if a name stands for it.
    pub call: ChanCall<u64>,
    /// The number of the name that stands for the handle, in order of binding.
    pub target: Option<u32>,
    /// Whether the line binds a name to the handle that its call makes.
    pub binds: bool,
}
