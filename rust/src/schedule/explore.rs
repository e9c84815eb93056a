//! A run that is explored: each call stands before the [`Explorer`], and each poll of a task, until
//! it is let go.
//!
//! `run.rs` is such a run, in a process of its own. `stand.rs` has who stands, `state.rs` how one
//! is chosen, `chooser.rs` the strategies, `fairness.rs` that nobody is passed over for long,
//! `spinning.rs` those who only look, `threads.rs` whether all other threads sleep, `clock.rs` the
//! clock of the run's timers, and `helper.rs` the thread that looks at both. `schedule.rs` is the
//! file of the choices, which a replay follows too. `guide.rs` is the strategy that a condition
//! guides, which `asked.rs` reads.

mod asked;
mod chooser;
mod clock;
mod explorer;
mod fairness;
mod guide;
mod helper;
mod order;
mod pin;
mod random;
mod run;
mod schedule;
mod spinning;
mod stand;
mod state;
mod system_call;
mod threads;

pub(crate) use asked::{FOR, condition};
pub(crate) use explorer::Explorer;
pub(crate) use order::{Order, OrderKind};
pub(crate) use run::{
    FAIR, NamedPlace, ORDER, PAUSE, POINTS, PROCESSOR, QUIET, SCHEDULE, SESSION, TARGET,
    TestReport, begin, end, follow, followed, has_points, is_of_session, is_quiet,
    is_run_asked_for, is_run_of_search, is_time_offered, left, target_folder, watch,
};
pub(crate) use schedule::{RunEnd, Schedule, Step, Turn, WaitingTask, What};
pub(crate) use threads::{Asked, Sleeper, ThreadId, Threads, this_thread};
