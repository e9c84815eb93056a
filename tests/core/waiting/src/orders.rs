//! A search through all orders of the steps that threads make on what they share.
//!
//! Of the threads of a [`Play`] one runs at a time. Each stops before its next step, and the search chooses which goes on. It plays
//! again from the start for each choice that is left, until none is. Where it comes to a state that it knows, it goes no further.
//!
//! A state is what is in each [`Place`], and for each thread a digest of all that its steps have seen. A thread depends on nothing
//! else, since what it owns is its own. So two states are taken for one only if their digests are the same by chance.

mod path;
#[allow(dead_code)]
#[path = "../../../../rust/src/schedule/explore/pin.rs"]
mod pin;
mod places;
mod run;
mod search;
mod state;

pub use places::{Place, call};
pub use search::{Found, Play, Search};
