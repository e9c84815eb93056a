//! Flight recorders: what they keep, and what their dumps say.

// WebAssembly has no threads, and ends at the first panic.
#[cfg(not(target_family = "wasm"))]
mod dumps;
#[cfg(not(target_family = "wasm"))]
mod held;
mod last_calls;
#[cfg(not(target_family = "wasm"))]
mod night;
mod past_limit;
mod storm;
#[path = "../support/mod.rs"]
mod support;
mod told;
mod windows;
