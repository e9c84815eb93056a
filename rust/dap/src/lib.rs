//! A debug adapter for recorded runs: an editor steps through the journal of a failing test,
//! forwards and backwards.
//!
//! An actor is a thread, a call is a stop at its line in the sources, and what the channels hold is
//! in the variables. The states are those of the proved core, by [`yovanelum::debugger`], and the
//! words are those of the report.

mod arguments;
mod breakpoints;
mod console;
mod expression;
mod inbox;
mod journal;
mod launch;
mod message;
mod moves;
mod native;
mod numbered;
mod package;
mod patch;
mod recording;
mod session;
mod shown;
mod sources;
mod state_json;
mod targets;
mod tasks;
mod texts;
mod variables;
mod watched;

pub use session::{Options, serve};

/// Why a request fails. The text is shown to the user.
#[derive(Debug)]
struct Refusal(String);

impl Refusal {
    /// What the protocol has a response say whose request was cancelled.
    const CANCELLED: &str = "cancelled";

    fn cancelled() -> Refusal {
        Refusal::new(Refusal::CANCELLED)
    }

    fn new(text: impl Into<String>) -> Refusal {
        Refusal(text.into())
    }
}

type Answer<T = serde_json::Value> = Result<T, Refusal>;
