//! Tests beside tokio, in one program, since each program is compiled and linked by itself.

#[path = "../../../tests/support/random.rs"]
mod random;
#[path = "../../../tests/support/yielding.rs"]
mod yielding;

mod budget;
mod event_bus;
mod given;
mod misuses;
mod names;
mod own_channels;
mod storm;
mod streams;
mod texts;
mod wakes;
