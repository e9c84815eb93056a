//! What the core replies to a call. Channels return it, and a run has it in its entries.

pub use yovanelum_core::source::rw_steps::Reply;
