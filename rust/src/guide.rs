//! The manual: from the first failing test to what is proved.
//!
//! | Page | What it says |
//! |---|---|
//! | [`command`] | `cargo yovanelum test`: no edit |
//! | [`start`] | add the crate, record a failing test, walk to a call |
//! | [`swap`] | a patch of tokio, an alias module, or one `use` |
//! | [`tasks`] | which channels and calls a recorder records, and who makes them |
//! | [`report`] | what a failing test prints and writes |
//! | [`late`] | why a receiver was late: what its task did meanwhile |
//! | [`replay`] | make the calls of a failing run again, in their order |
//! | [`explore`] | look for an order that fails; loom and shuttle beside it |
//! | [`service`] | lags, closed channels and health of a running service |
//! | [`flight`] | the last calls of a running service, when it lags |
//! | [`limits`] | what differs from tokio, and how much a recorder keeps |
//! | [`speed`] | what a recorded call costs |
//! | [`platforms`] | where it runs, and where its tests ran |
//! | [`proofs`] | what is proved, tested and trusted |

#[doc = include_str!("guide/command.md")]
///
/// [`guide::replay`]: crate::guide::replay
/// [`guide::explore`]: crate::guide::explore
/// [`ForTest::save_on_err`]: crate::ForTest::save_on_err
pub mod command {}

#[doc = include_str!("guide/start.md")]
///
/// [`guide::command`]: crate::guide::command
/// [`guide::swap`]: crate::guide::swap
/// [`guide::report`]: crate::guide::report
/// [`guide::replay`]: crate::guide::replay
/// [`guide::explore`]: crate::guide::explore
/// [`Recorder`]: crate::Recorder
/// [`debugger::Walk`]: crate::debugger::Walk
pub mod start {}

#[doc = include_str!("guide/swap.md")]
///
/// [`guide::command`]: crate::guide::command
/// [`guide::tasks`]: crate::guide::tasks
/// [`guide::limits`]: crate::guide::limits
/// [`named`]: crate::named()
pub mod swap {}

#[doc = include_str!("guide/tasks.md")]
///
/// [`guide::swap`]: crate::guide::swap
/// [`named`]: crate::named
/// [`Recorder::for_test`]: crate::Recorder::for_test
/// [`Recorder::on_thread_start`]: crate::Recorder::on_thread_start
/// [`Recorder::scope`]: crate::Recorder::scope
/// [`Recorder::install`]: crate::Recorder::install
/// [`Recorder::new`]: crate::Recorder::new
/// [`Recorder::enter`]: crate::Recorder::enter
/// [`Recorder::save`]: crate::Recorder::save
/// [`Recorder::journal`]: crate::Recorder::journal
/// [`Recorder::save_on_panic`]: crate::Recorder::save_on_panic
/// [`Recorder::of`]: crate::Recorder::of
/// [`Recorder::off`]: crate::Recorder::off
/// [`Recorder::quiet_questions`]: crate::Recorder::quiet_questions
/// [`Recorder::waiting`]: crate::Recorder::waiting
/// [`ForTest::save_on_err`]: crate::ForTest::save_on_err
pub mod tasks {}

#[doc = include_str!("guide/report.md")]
///
/// [`Recorder::name`]: crate::Recorder::name
/// [`Recorder::name_channel`]: crate::Recorder::name_channel
/// [`Recorder::name_handle`]: crate::Recorder::name_handle
/// [`Recorder::show`]: crate::Recorder::show
/// [`Recorder::cut_texts_at`]: crate::Recorder::cut_texts_at
/// [`debugger::Walk`]: crate::debugger::Walk
pub mod report {}

#[doc = include_str!("guide/late.md")]
///
/// [`guide::swap`]: crate::guide::swap
/// [`named`]: crate::named()
pub mod late {}

#[doc = include_str!("guide/replay.md")]
///
/// [`guide::swap`]: crate::guide::swap
/// [`guide::tasks`]: crate::guide::tasks
/// [`Recorder::replay`]: crate::Recorder::replay
/// [`Recorder::replayed`]: crate::Recorder::replayed
pub mod replay {}

#[doc = include_str!("guide/explore.md")]
///
/// [`guide::report`]: crate::guide::report
/// [`guide::replay`]: crate::guide::replay
/// [`guide::tasks`]: crate::guide::tasks
/// [`guide::swap`]: crate::guide::swap
pub mod explore {}

#[doc = include_str!("guide/service.md")]
///
/// [`on_lag`]: crate::on_lag
/// [`on_close`]: crate::on_close
/// [`Lag`]: crate::Lag
/// [`snapshot`]: crate::snapshot()
/// [`Recorder::snapshot`]: crate::Recorder::snapshot
/// [`Recorder::off`]: crate::Recorder::off
/// [`ChannelSnapshot::of`]: crate::ChannelSnapshot::of
/// [`guide::flight`]: crate::guide::flight
/// [`guide::swap`]: crate::guide::swap
pub mod service {}

#[doc = include_str!("guide/flight.md")]
///
/// [`Recorder::dump`]: crate::Recorder::dump
/// [`Recorder::dumps`]: crate::Recorder::dumps
/// [`Recorder::for_test`]: crate::Recorder::for_test
pub mod flight {}

#[doc = include_str!("guide/limits.md")]
///
/// [`block_on`]: crate::block_on
/// [`named`]: crate::named()
/// [`guide::swap`]: crate::guide::swap
/// [`guide::flight`]: crate::guide::flight
pub mod limits {}

#[doc = include_str!("guide/speed.md")]
pub mod speed {}

#[doc = include_str!("guide/platforms.md")]
pub mod platforms {}

#[doc = include_str!("guide/proofs.md")]
pub mod proofs {}
