//! The data of a recorded run, for `yovanelum`, which writes it, and for `yovanelum-reader`, which
//! reads it. It promises no API: depend on `yovanelum`.
//!
//! A run is a journal, which the proved core writes and reads ([`journal`]), and the names beside
//! it ([`sidecar`]): what its channels, callers and values are called, and where its calls were
//! made. [`operation`] and [`reply`] are a call and what it returned, from one table of all calls
//! ([`calls`]). [`visible`] and [`unnamed`] are how a text and a channel without a name are shown.
//! [`question`] is how a test asks another program to read its run.
#![deny(unsafe_code)]
// It has what its callers call and no more.
#![allow(clippy::len_without_is_empty, clippy::new_without_default)]

pub mod by_text;
pub mod calls;
pub mod clock;
pub mod conditions;
pub mod journal;
pub mod listed;
pub mod look;
pub mod numbered;
pub mod operation;
pub mod question;
pub mod reply;
pub mod sidecar;
pub mod sorting;
#[cfg(feature = "steps")]
pub mod steps;
pub mod unnamed;
pub mod visible;

#[cfg(test)]
#[allow(dead_code)]
#[path = "../../tests/support/console.rs"]
mod console;
#[cfg(test)]
#[allow(dead_code)]
#[path = "../../tests/support/random_journals.rs"]
mod random_journals;
#[cfg(test)]
#[allow(dead_code)]
#[path = "../../tests/support/temporary.rs"]
mod temporary;
