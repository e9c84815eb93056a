//! What is played with each version of seats and desks. Each version includes these two files, and here they are for rustfmt alone.

#[cfg(any())]
mod locks;
#[cfg(any())]
mod seats;

use crate::shim::sync::Wait;

/// What may block.
pub(crate) struct Runtime;

impl Wait for Runtime {}

pub(crate) const RT: Runtime = Runtime;

pub(crate) fn boxed(act: impl FnOnce() + Send + 'static) -> Box<dyn FnOnce() + Send> {
    Box::new(act)
}
