//! Gates, which are notified of the calls of a script that threads play.
// From crates/rw_script/src/gate.rt, with its contracts as comments. //+

/// What is notified of each call that the threads of a script make. No lock is held while a gate is called.
pub trait Gate {
    /// Is called right before an actor's call. `i` counts the actor's calls from 0.
    fn before(&self, actor: u32, i: u64);

    /// Is called right after it, even if it failed.
    fn after(&self, actor: u32, i: u64);
}

/// Holds no call back.
impl Gate for () {
    fn before(&self, _actor: u32, _i: u64) {}

    fn after(&self, _actor: u32, _i: u64) {}
}
