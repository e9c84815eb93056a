//! Tests that need nothing of their process, as those of `calls`, and that run with optimisation
//! too: they see how calls are inlined, panics, and threads side by side, or take too long without.

#[path = "../support/mod.rs"]
mod support;

mod beside_model;
mod limits;
mod locations;
mod model_broadcast;
mod model_watch;
mod threads;
mod user_code;
mod waiting;
