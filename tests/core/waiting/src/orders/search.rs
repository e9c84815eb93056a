//! The search itself.

use super::path::Path;
use super::pin::pin_to;
use super::places::belong_to;
use super::run::{End, Run};
use std::panic::{AssertUnwindSafe, catch_unwind};
use std::sync::Arc;
use std::thread;

/// What a run does, from its beginning.
pub struct Play {
    pub threads: Vec<Box<dyn FnOnce() + Send>>,
    /// What is looked at once all threads have ended.
    pub end: Box<dyn FnOnce()>,
}

/// Which orders are searched, and what a thread may do.
#[derive(Clone, Copy, Debug)]
pub struct Search {
    /// How often at most a thread is stopped that could go on, or `None` for all orders.
    pub preemptions: Option<u32>,
    /// How often at most a thread is woken by nothing.
    pub surprises: u32,
    /// How many steps at most a thread makes in a call while no other thread changes anything.
    pub most_alone: u32,
}

/// What a search has found.
#[derive(Debug)]
pub enum Found {
    /// Nothing, in this many states and orders.
    Nothing { states: usize, orders: usize },
    /// An order at whose end threads sleep, and nobody is there to wake them.
    Asleep(String),
    /// An order in which a thread goes on and on while nothing changes.
    Spins(String),
    /// An order in which a thread, or the end, panics.
    Panics(String),
}

impl Search {
    /// Searches the orders of a play. It is begun once for each, and has to do the same each time.
    pub fn of(self, begin: impl Fn() -> Play) -> Found {
        // A turn goes to a thread of the same processor in a fiftieth of the time.
        pin_to(std::process::id() as usize);
        let mut path = Path::default();
        let mut orders = 0;
        loop {
            let (end, after) = self.run(path, &begin);
            path = after;
            orders += 1;
            match end {
                End::Done | End::Known => {}
                End::Asleep(steps) => return Found::Asleep(steps),
                End::Spins(steps) => return Found::Spins(steps),
                End::Panics(message) => return Found::Panics(message),
            }
            if !path.advance() {
                return Found::Nothing {
                    states: path.states(),
                    orders,
                };
            }
        }
    }

    /// Runs a play in the order of a path.
    fn run(self, path: Path, begin: &impl Fn() -> Play) -> (End, Path) {
        let run = Arc::new(Run::new(self, path));
        belong_to(Some((run.clone(), None)));
        let Play { threads, end } = begin();
        run.begin(threads.len());
        thread::scope(|scope| {
            for (number, act) in threads.into_iter().enumerate() {
                let run = &run;
                scope.spawn(move || run_thread(run, number, act));
            }
        });
        let (ended, path) = run.ended();
        if let End::Done = ended {
            end();
        }
        belong_to(None);
        (ended, path)
    }
}

/// Runs a thread of a play.
fn run_thread(run: &Arc<Run>, number: usize, act: Box<dyn FnOnce() + Send>) {
    belong_to(Some((run.clone(), Some(number))));
    let ended = catch_unwind(AssertUnwindSafe(|| {
        run.thread_begins(number);
        act();
    }));
    belong_to(None);
    run.thread_ended(number, ended.err());
}
