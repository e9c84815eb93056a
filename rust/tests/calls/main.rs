//! Tests that need nothing of their process: no allocator, no hook for panics, no closures of the
//! process. They are one program, since each program takes a second to compile and to link, in each
//! of four builds. All files that they write have names of their own.

#[path = "../support/noted.rs"]
mod noted;
#[path = "../support/mod.rs"]
mod support;

mod auto_traits;
mod broadcast;
mod budget;
mod cloned_wakers;
mod created_within;
mod event_bus;
mod events;
mod forgotten;
mod given_away;
mod journals;
mod large_values;
mod scopes;
mod settings;
mod snapshot;
mod storm;
mod texts;
mod told;
mod used_again;
mod wakes;
mod watch;
mod who_waits;
