//! What is said of a recorded run. It promises no API: depend on `yovanelum`, or use the command.
//!
//! [`account`] finds the facts of a run and orders them. [`report`] prints an account as a
//! terminal, SARIF or the page has it. [`debugger`] walks over a run's places. [`command`] is
//! `yovanelum why` and `yovanelum open`. [`answers`] makes the report that a failing test asks for.
#![deny(unsafe_code)]
// It has what its callers call and no more.
#![allow(clippy::len_without_is_empty, clippy::new_without_default)]

pub mod account;
pub mod answers;
pub mod command;
pub mod debugger;
pub mod report;

#[cfg(test)]
#[allow(dead_code)]
#[path = "../../tests/support/console.rs"]
mod console;
#[cfg(test)]
#[allow(dead_code)]
#[path = "../../tests/support/random_journals.rs"]
mod random_journals;
#[cfg(test)]
#[allow(dead_code)]
#[path = "../../tests/support/temporary.rs"]
mod temporary;
