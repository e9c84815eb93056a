//! tokio's [`broadcast`] and [`watch`] for tests: when a test fails, walk back to the call that
//! made a receiver lag.
//!
//! The channels have the names, signatures and results of `tokio::sync`. A recorder records each
//! call: on which channel, who made it, and what it returned. A failing test prints which call lost
//! which value. Its calls can be made again in their order, and walked through forwards and
//! backwards, in a browser, an editor or a terminal.
//!
//! [The guide](guide) is the manual. It begins with [how to add the crate](guide::start) and [three
//! ways to swap the channels](guide::swap), one of which edits no source.
//!
//! # A test that fails
//!
//! A bus of capacity 2 announces orders. The screen receives each one at once, and the audit
//! receives late:
//!
//! ```should_panic
//! use yovanelum::{Recorder, broadcast};
//!
//! let recorder = Recorder::for_test("slow_audit");
//! let (orders, mut audit) = broadcast::channel(2);
//! recorder.name(&orders, "orders").name(&audit, "audit");
//! recorder.show(&orders, |id| format!("order {id}"));
//! let mut screen = orders.subscribe();
//! for id in [71, 72, 73] {
//!     orders.send(id).unwrap();
//!     assert_eq!(screen.try_recv(), Ok(id));
//! }
//! assert_eq!(audit.try_recv(), Ok(71));
//! ```
//!
//! It prints what happened:
//!
//! ```text
//! assertion `left == right` failed
//!   left: Err(Lagged(1))
//!  right: Ok(71)
//! failed: slow_audit at tests/shop.rs:17: assertion `left == right` failed, left: Err(Lagged(1)), right: Ok(71); call 8 was orders.try_recv(): Lagged(1)
//! error: `audit` lost 1 of 3 values of `orders` (capacity 2)
//!   --> tests/shop.rs:17:18
//! note: call 6, the send that overwrote the first of them
//!   --> tests/shop.rs:14:12
//!   call 6   orders.send("order 73")   slow_audit  tests/shop.rs:14   overwrote "order 71", which audit had not read
//!   call 8   told: lagged 1            slow_audit  tests/shop.rs:17   its last receive: none before
//!   lost: "order 71"
//! look: file:///shop/target/yovanelum/shop/test-shop/slow_audit.html#call=6
//! replay: YOVANELUM_REPLAY=/shop/target/yovanelum/shop/test-shop/slow_audit.journal cargo test -p shop --test shop -- slow_audit --exact
//! ```
//!
//! Call 6 did it, the send of the third order: the channel retains two, and the audit had not
//! received the first. Call 8 returned the loss. The address opens the run in a browser at call 6,
//! and the command [makes the calls again](guide::replay).
//!
//! # What it does
//!
//! | You want to | Use |
//! |---|---|
//! | record what a test's channels do | [`Recorder::for_test`], and [`named`] for tasks: [`guide::tasks`] |
//! | read the report with your own names and values | [`Recorder::name`], [`Recorder::show`]: [`guide::report`] |
//! | bring a rare failure back | [`guide::replay`] |
//! | make a rare failure happen | [`guide::explore`] |
//! | see where a test hangs | [`ForTest::watchdog`], [`Recorder::waiting`] |
//! | learn of each lag in a service, and of its health | [`on_lag`], [`on_close`], [`snapshot`]: [`guide::service`] |
//! | have the last calls of a service when it lags | [`Recorder::flight`]: [`guide::flight`] |
//! | walk through a run in a program | [`debugger::Walk`] |
//! | know what differs from tokio, the limits and the cost | [`guide::limits`], [`guide::speed`] |
//! | know what is proved | [`guide::proofs`] |
//!
//! The crate has only sources, depends on packages of its own alone, and runs on
//! [every target](guide::platforms) of Rust's standard library whose pointers have 32 bits or more.
#![deny(unsafe_code)]
#![cfg_attr(feature = "debug_values", feature(specialization))]
#![cfg_attr(feature = "debug_values", allow(incomplete_features))]

#[cfg(target_pointer_width = "16")]
compile_error!("yovanelum needs a target whose pointers have 32 bits or more");

mod channels;
pub mod guide;
mod harness;
mod schedule;
#[cfg(test)]
#[path = "../tests/support/temporary.rs"]
mod temporary;

// Each item has this short path, and its page is in one of the two modules below, so that the front
// page has few.
#[doc(hidden)]
pub use channels::actors::{Named, SpawnedTask, blocking_task, named, set_task_id, spawned_task};
#[doc(hidden)]
pub use channels::block_on::{block_on, set_blocking_check};
#[doc(hidden)]
pub use channels::budget::{budgeted, set_budget};
#[doc(hidden)]
pub use channels::events::{Close, Lag, on_close, on_lag};
#[doc(hidden)]
pub use channels::points::pass_point;
#[doc(hidden)]
pub use channels::polled::Polled;
#[doc(hidden)]
pub use channels::recorder::{
    Dump, Dumps, Entered, Handle, Installed, Recorder, Scoped, Waiting, follow_this_thread,
};
#[doc(hidden)]
pub use channels::snapshot::{ChannelSnapshot, ReceiverSnapshot, Snapshot, snapshot};
#[doc(hidden)]
pub use channels::timers::{HeldTimer, are_timers_held};
#[doc(hidden)]
pub use channels::turns::is_thread_held;
#[doc(hidden)]
pub use channels::whereabouts::{SeenPolls, set_clock};
pub use channels::{broadcast, watch};
#[doc(hidden)]
pub use harness::automatic::{BlockedOn, record_tests};
#[doc(hidden)]
pub use harness::flight::DumpTo;
#[doc(hidden)]
pub use harness::for_test::{ForTest, SaveOnPanic};
#[doc(hidden)]
pub use harness::given;
#[doc(hidden)]
pub use harness::program::set_patch;
#[doc(hidden)]
pub use schedule::replay::Replayed;
#[cfg(feature = "report")]
#[doc(hidden)]
pub use yovanelum_reader::command::command;
#[cfg(feature = "report")]
pub use yovanelum_reader::debugger;
#[doc(hidden)]
pub use yovanelum_record::sidecar::{Json, read_json};

/// Lets tests that create no recorder get one by themselves, if `cargo yovanelum` runs them. A
/// channel calls it, which stands below what it calls.
fn begin_tests() {
    record_tests();
}

/// The recorder, what it returns, and who calls: tasks and their names.
///
/// Each item is also at the crate's root, as `yovanelum::Recorder`.
pub mod recorder {
    pub use crate::channels::actors::{Named, named, set_task_id};
    pub use crate::channels::block_on::block_on;
    pub use crate::channels::polled::Polled;
    pub use crate::channels::recorder::{
        Dump, Dumps, Entered, Handle, Installed, Recorder, Scoped, Waiting, follow_this_thread,
    };
    pub use crate::harness::flight::DumpTo;
    pub use crate::harness::for_test::{ForTest, SaveOnPanic};
    pub use crate::schedule::replay::Replayed;
    #[doc(inline)]
    pub use crate::{name, show};
    #[cfg(feature = "report")]
    pub use yovanelum_reader::command::command;
}

/// Events and snapshots of a running service's channels: who lags, and how far each receiver is.
///
/// Each item is also at the crate's root, as `yovanelum::on_lag`.
pub mod service {
    pub use crate::channels::events::{Close, Lag, on_close, on_lag};
    pub use crate::channels::snapshot::{ChannelSnapshot, ReceiverSnapshot, Snapshot, snapshot};
}

// Runs the programs of the README.
#[cfg(doctest)]
#[doc = include_str!("../README.md")]
struct Readme;
