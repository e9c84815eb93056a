//! Where tasks come from that nobody named: from the place that spawns one, as which of those that
//! its caller has spawned there, and from that caller.
//!
//! A caller spawns in the order of its program. So in a replay a task has the same origin as in the
//! run, and is known by it.

use super::caller::{NAME, current_task, is_unnamed, name_of_thread};
use super::identity::is_worker;
use crate::channels::recorder::current_and_home;
use crate::channels::reentrant::thread_number;
use std::cell::RefCell;
use std::fmt::{self, Display, Formatter};
use std::iter;
use std::panic::Location;
use std::sync::Arc;

/// How the names of such tasks begin.
pub(crate) const SPAWNED_TASK: &str = "task of ";

/// How many tasks a name has at most, each spawned by the next. A task that the innermost spawns
/// has none. So no name is long, and no task holds many that have ended.
const DEEPEST: usize = 4;

/// Where a task comes from. Its text is the task's name.
#[derive(Clone)]
pub(super) struct Origin {
    at: &'static Location<'static>,
    nth: u32,
    /// `None` for the thread that has created the recorder.
    by: Option<Arc<Spawner>>,
}

/// A caller that spawns tasks.
enum Spawner {
    /// A future or a thread with this name.
    Named(String),
    Task(Origin),
}

impl Origin {
    /// That of a task of which its place alone is known.
    pub(super) fn of_place(at: &'static Location<'static>) -> Origin {
        let (nth, by) = (1, None);
        Origin { at, nth, by }
    }

    fn file(&self) -> &'static str {
        shown(self.at.file())
    }

    fn depth(&self) -> usize {
        let outwards = iter::successors(Some(self), |task| match task.by.as_deref() {
            Some(Spawner::Task(by)) => Some(by),
            _ => None,
        });
        outwards.count()
    }
}

impl Display for Origin {
    fn fmt(&self, f: &mut Formatter<'_>) -> fmt::Result {
        write!(f, "{SPAWNED_TASK}{}", self.file())?;
        let mut task = self;
        loop {
            write!(f, ":{}", task.at.line())?;
            if task.nth > 1 {
                write!(f, " {}", task.nth)?;
            }
            match task.by.as_deref() {
                None => return Ok(()),
                Some(Spawner::Named(name)) => return write!(f, " by {name}"),
                Some(Spawner::Task(by)) => {
                    let is_other = by.file() != task.file();
                    write!(f, " by {}", if is_other { by.file() } else { "" })?;
                    task = by;
                }
            }
        }
    }
}

/// Returns the end of a path, by which a name has it: reports cut long names.
fn shown(file: &str) -> &str {
    let mut separators = file.rmatch_indices(['/', '\\']);
    separators.nth(1).map_or(file, |(at, _)| &file[at + 1..])
}

/// Whom a thread runs, and what that one has spawned.
pub(super) struct Within {
    runs: Runs,
    // `None` until it spawns.
    spawned: Option<Box<Spawned>>,
}

/// Whom a thread runs, as far as that says where tasks come from.
enum Runs {
    /// No future with a name.
    Thread,
    /// A future that somebody named.
    Named,
    Task(Origin),
}

/// What a caller has spawned.
struct Spawned {
    /// Of a thread, the recorder under which it did. No recorder has the number 0.
    recorder: u64,
    by: Option<Arc<Spawner>>,
    /// How many tasks, by the place.
    counts: Vec<(&'static Location<'static>, u32)>,
}

/// In the place of a recorder and the thread that has created it, where no thread spawns.
const OF_NO_THREAD: (u64, usize) = (0, 0);

thread_local! {
    pub(super) static WITHIN: RefCell<Within> = const { RefCell::new(Within::THREAD) };
}

impl Within {
    const THREAD: Within = Within {
        runs: Runs::Thread,
        spawned: None,
    };

    /// A future that somebody named.
    pub(super) fn named() -> Within {
        Within {
            runs: Runs::Named,
            spawned: None,
        }
    }

    /// A task that comes from there, if that is known.
    pub(super) fn task(origin: Option<Origin>) -> Within {
        Within {
            runs: origin.map_or(Runs::Thread, Runs::Task),
            spawned: None,
        }
    }

    /// Returns where it comes from, if it is a task that nobody named.
    pub(super) fn origin(&self) -> Option<&Origin> {
        match &self.runs {
            Runs::Task(origin) => Some(origin),
            Runs::Thread | Runs::Named => None,
        }
    }

    /// Whether nothing but the thread is known of its caller.
    fn is_thread(&self) -> bool {
        matches!(self.runs, Runs::Thread)
    }

    /// Returns where a task comes from that is spawned now, if its caller can be told apart. The
    /// recorder is that of a thread, and the thread that has created it.
    fn spawn(
        &mut self,
        at: &'static Location<'static>,
        (recorder, home): (u64, usize),
    ) -> Option<Origin> {
        let spawned = match &mut self.spawned {
            Some(spawned) if spawned.recorder == recorder => spawned,
            before => before.insert(Box::new(Spawned {
                recorder,
                by: self.runs.spawner(home)?,
                counts: Vec::new(),
            })),
        };
        Some(Origin {
            at,
            nth: spawned.count(at),
            by: spawned.by.clone(),
        })
    }
}

impl Runs {
    /// Returns the caller that spawns, `None` in it for the thread that has created the recorder,
    /// which is this one. There is none if it can't be told apart.
    fn spawner(&self, home: usize) -> Option<Option<Arc<Spawner>>> {
        let spawner = match self {
            Runs::Task(origin) if origin.depth() == DEEPEST => return None,
            Runs::Task(origin) => Spawner::Task(origin.clone()),
            Runs::Named => {
                let name = NAME.try_with(|name| name.borrow().clone());
                Spawner::Named(name.ok().flatten()?.to_string())
            }
            Runs::Thread if home == thread_number() => return Some(None),
            Runs::Thread => {
                let name = name_of_thread();
                if is_unnamed(&name) || is_worker(&name) {
                    return None;
                }
                Spawner::Named(name)
            }
        };
        Some(Some(Arc::new(spawner)))
    }
}

impl Spawned {
    /// Returns which of its place a further task is, from 1 on.
    fn count(&mut self, at: &'static Location<'static>) -> u32 {
        // As names have it.
        let is_here =
            |other: &Location| other.line() == at.line() && shown(other.file()) == shown(at.file());
        let mut counts = self.counts.iter_mut();
        match counts.find(|(other, _)| is_here(other)) {
            Some((_, count)) => {
                *count += 1;
                *count
            }
            None => {
                self.counts.push((at, 1));
                1
            }
        }
    }
}

/// Returns where a task comes from that the current caller spawns at this place, if the caller can
/// be told apart.
pub(super) fn spawned_at(at: &'static Location<'static>) -> Option<Origin> {
    let is_thread = WITHIN.try_with(|within| within.borrow().is_thread());
    // Nothing is borrowed here, where a recorder may be dropped, which may run user code.
    let recorder = if !is_thread.ok()? {
        OF_NO_THREAD
    } else if current_task().is_none() {
        current_and_home()?
    } else {
        return None;
    };
    let origin = WITHIN.try_with(|within| within.borrow_mut().spawn(at, recorder));
    origin.ok().flatten()
}

#[cfg(test)]
mod tests {
    use super::*;
    use crate::channels::recorder::Recorder;
    use std::thread;

    #[test]
    fn a_name_has_the_place_which_of_its_tasks_it_is_and_who_spawns_it() {
        let at = Location::caller();
        let place = format!("task of actors/origin.rs:{}", at.line());
        assert_eq!(Origin::of_place(at).to_string(), place);
        let by = Spawner::Named("clerk".to_string());
        let task = Origin {
            at,
            nth: 3,
            by: Some(Arc::new(by)),
        };
        assert_eq!(task.to_string(), format!("{place} 3 by clerk"));
        let inner = Origin {
            at,
            nth: 1,
            by: Some(Arc::new(Spawner::Task(task))),
        };
        assert_eq!(
            inner.to_string(),
            format!("{place} by :{} 3 by clerk", at.line())
        );
        assert_eq!(inner.depth(), 2);
    }

    #[test]
    fn tasks_of_one_line_of_two_files_are_counted_apart() {
        let [one, other] = [include!("origin/line.rs"), include!("origin/other_line.rs")];
        assert_eq!((one.line(), other.line()), (1, 1));
        let mut spawned = Spawned {
            recorder: 1,
            by: None,
            counts: Vec::new(),
        };
        let counts = [one, other, one, other].map(|at| spawned.count(at));
        assert_eq!(counts, [1, 1, 2, 2]);
    }

    #[test]
    #[cfg_attr(target_family = "wasm", ignore = "WebAssembly has no threads")]
    fn a_thread_has_a_name_by_which_it_spawns_unless_it_is_a_worker() {
        let recorder = Recorder::new();
        let spawned_by = |name: &str| {
            let spawn = || {
                let _entered = recorder.enter();
                spawned_at(Location::caller()).map(|task| task.to_string())
            };
            thread::scope(|scope| {
                let named = thread::Builder::new().name(name.to_string());
                named.spawn_scoped(scope, spawn).unwrap().join().unwrap()
            })
        };
        assert!(spawned_by("clerk").is_some_and(|task| task.ends_with(" by clerk")));
        for worker in ["tokio-runtime-worker", "tokio-rt-worker"] {
            assert_eq!(spawned_by(worker), None);
        }
    }

    #[test]
    fn a_name_has_the_end_of_a_path() {
        for (file, wanted) in [
            ("build.rs", "build.rs"),
            ("src/lib.rs", "src/lib.rs"),
            ("/a/registry/src/b/hyper-0.14.19/src/c/d.rs", "c/d.rs"),
            ("tests\\orders.rs", "tests\\orders.rs"),
        ] {
            assert_eq!(shown(file), wanted);
        }
    }
}
