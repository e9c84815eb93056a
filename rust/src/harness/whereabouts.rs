//! What was seen of the tasks of a test, as the names have it: the places of stacks are named now.

mod functions;
mod stack;
#[cfg(test)]
mod tests;

use super::saved::RunSoFar;
use crate::channels::whereabouts::{
    KeptPlace, PlaceNumber, PollNoted, TaskNoted, WokenFrom, kept_place,
};
use crate::harness::program::Program;
use crate::schedule::explore::NamedPlace;
use functions::ReadSources;
use stack::{PrintedStack, StackFrame};
use std::backtrace::Backtrace;
use std::env;
use std::path::{Path, PathBuf};
use yovanelum_record::listed::IntoList;
use yovanelum_record::numbered::{NumberMap, NumberSet};
use yovanelum_record::sidecar::{
    SeenPlace, SeenPoll, SeenTask, SeenWake, Sidecar, SourceLocation, TasksSeen, WokenBy,
    is_downloaded,
};

/// What the functions have by which a runtime wakes for its timers.
const TIMERS: [&str; 2] = ["tokio::runtime::time::", "tokio::time::driver::"];

/// What those have by which it wakes for all else.
const DRIVERS: [&str; 4] = [
    "tokio::runtime::io::",
    "tokio::io::driver::",
    "tokio::runtime::signal::",
    "tokio::signal::",
];

/// What those have that wait for a function of tokio's own on a thread that may block. Such a
/// function isn't a task that is seen.
const THREADS: [&str; 3] = ["tokio::fs::", "tokio::io::blocking::", "tokio::net::addr::"];

/// What those have by which a task that ends wakes who joins it.
const ENDS: [&str; 2] = ["::wake_join", "::harness::"];

impl RunSoFar<'_> {
    /// Adds what was seen of the tasks of the test. That reads the symbols of the program, so it is
    /// only for a report. `raised` is by how much the stamps of calls are raised.
    pub(super) fn add_tasks_seen(&self, names: &mut Sidecar, raised: u64) {
        let Some(noted) = self.recorder().tasks_noted() else {
            return;
        };
        let paths = names.locations.iter().map(|at| Path::new(&at.file));
        let root = Program::this().root_of(&paths.listed());
        let here = env::current_dir().unwrap_or_default();
        let root = root.unwrap_or_else(|| here.clone());
        let mut naming = PlaceNaming::new(names, root, here);
        naming.tasks = (0..)
            .zip(&noted.tasks)
            .map(|(index, it)| (it.number, index))
            .collect();
        let tasks = noted.tasks.iter().map(|task| naming.task(task)).listed();
        let mut seen = TasksSeen {
            has_times: noted.has_times,
            now: noted.now / 1000,
            unknown_since: noted.unknown_since,
            places: naming.made,
            tasks,
        };
        seen.raise(raised);
        names.tasks_seen = Some(seen);
    }
}

/// Says what a task waits for at a place, and where that is in the source.
pub(super) fn named_place(number: PlaceNumber) -> NamedPlace {
    let mut names = Sidecar::default();
    let here = env::current_dir().unwrap_or_default();
    let root = Program::this().root_of(&[]).unwrap_or_else(|| here.clone());
    let mut naming = PlaceNaming::new(&mut names, root, here);
    let index = naming.place(number);
    let place = naming.made.swap_remove(index);
    let location = place.location.and_then(|index| names.locations.get(index));
    NamedPlace {
        what: Some(place.what).filter(|what| !what.is_empty()),
        at: location.map(|at| (at.file.clone(), at.line)),
    }
}

/// Who wakes, as far as the stack of a wake says it.
#[derive(Clone, Copy, PartialEq, Eq)]
enum Waking {
    Timer,
    Driver,
    End,
    Other,
}

impl Waking {
    fn of(function: &str) -> Waking {
        let has = |words: &[&str]| words.iter().any(|word| function.contains(word));
        match () {
            () if has(&TIMERS) => Waking::Timer,
            () if has(&DRIVERS) => Waking::Driver,
            () if has(&ENDS) => Waking::End,
            () => Waking::Other,
        }
    }
}

struct PlaceNaming<'a> {
    names: &'a mut Sidecar,
    root: PathBuf,
    here: PathBuf,
    // The index of each task by its number.
    tasks: NumberMap<u64, usize>,
    // A small number of each thread.
    threads: NumberMap<usize, u64>,
    places: NumberMap<PlaceNumber, usize>,
    by: NumberMap<PlaceNumber, Waking>,
    // Those where a task waits for a thread of the runtime.
    of_threads: NumberSet<PlaceNumber>,
    made: Vec<SeenPlace>,
    sources: ReadSources,
}

impl<'a> PlaceNaming<'a> {
    fn new(names: &'a mut Sidecar, root: PathBuf, here: PathBuf) -> PlaceNaming<'a> {
        PlaceNaming {
            root,
            here,
            names,
            tasks: NumberMap::new(),
            threads: NumberMap::new(),
            places: NumberMap::new(),
            by: NumberMap::new(),
            of_threads: NumberSet::new(),
            made: vec![],
            sources: ReadSources::default(),
        }
    }

    fn printed(&mut self, stack: &Backtrace) -> PrintedStack {
        PrintedStack::of(stack, &mut self.sources, &self.here)
    }

    fn task(&mut self, task: &TaskNoted) -> SeenTask {
        // One that has made no call yet may have the name of an actor.
        let named = self
            .names
            .actors
            .iter()
            .find(|(_, name)| ***name == *task.name);
        let named = named.map(|(actor, _)| *actor);
        SeenTask {
            name: task.name.to_string(),
            actor: task.actor.or(named),
            is_over: task.is_over,
            within: task
                .within
                .and_then(|within| self.tasks.get(&within).copied()),
            polls: self.polls(&task.polls),
        }
    }

    fn polls(&mut self, polls: &[PollNoted]) -> Vec<SeenPoll> {
        let seen = polls.iter().map(|poll| self.poll(poll));
        let mut seen: Vec<_> = seen.listed();
        let last = polls.last().and_then(|poll| poll.woken.as_ref());
        if let Some(poll) = seen
            .last_mut()
            .filter(|_| last.is_some_and(|it| it.in_panic))
        {
            // It is what the end of the test did.
            poll.woken = None;
        }
        seen
    }

    fn poll(&mut self, poll: &PollNoted) -> SeenPoll {
        let threads = self.threads.len() as u64;
        let places = poll.places.iter().flatten();
        let mut seen: Vec<usize> = vec![];
        for place in places {
            let place = self.place(*place);
            if !seen.contains(&place) {
                seen.push(place);
            }
        }
        SeenPoll {
            begin: poll.begin / 1000,
            end: poll.end.map(|end| end / 1000),
            before: poll.before,
            after: poll.after,
            thread: *self.threads.get_or_insert_with(poll.thread, || threads),
            places: seen,
            woken: poll.woken.as_ref().map(|woken| SeenWake {
                at: woken.at / 1000,
                stamp: woken.stamp,
                by: self.woken_by(&woken.by, woken.place, woken.kept_at),
                place: match woken.by {
                    WokenFrom::Task(_) if woken.place != PlaceNumber::UNKNOWN => {
                        Some(self.place(woken.place))
                    }
                    _ => None,
                },
                kept_at: woken.kept_at.map(|place| self.place(place)),
            }),
        }
    }

    fn woken_by(
        &mut self,
        by: &WokenFrom,
        place: PlaceNumber,
        kept_at: Option<PlaceNumber>,
    ) -> WokenBy {
        let (thread, ended) = match by {
            WokenFrom::Task(number) => {
                return self
                    .index_of(*number)
                    .map_or(WokenBy::Somebody, WokenBy::Task);
            }
            WokenFrom::Thread(thread, ended) => (thread, ended),
        };
        let index = kept_at.map(|place| self.place(place));
        let joins = index.is_some_and(|place| self.made[place].what == "JoinHandle");
        let is_of_thread = kept_at.is_some_and(|place| self.of_threads.contains(&place));
        let waking = self.waking(place);
        let ended = ended.and_then(|number| self.index_of(number));
        match (waking, ended, thread) {
            (Waking::Timer, ..) => WokenBy::Timer,
            (Waking::Driver, ..) => WokenBy::Runtime,
            _ if is_of_thread => WokenBy::Runtime,
            (_, Some(task), _) if joins || waking == Waking::End => WokenBy::End(task),
            (_, None, Some(name)) if waking == Waking::Other => WokenBy::Thread(name.to_string()),
            _ => WokenBy::Somebody,
        }
    }

    fn index_of(&self, task: u64) -> Option<usize> {
        self.tasks.get(&task).copied()
    }

    /// Returns what the stack of a wake says of who wakes.
    fn waking(&mut self, place: PlaceNumber) -> Waking {
        if let Some(known) = self.by.get(&place) {
            return *known;
        }
        let waking = match kept_place(place) {
            Some(KeptPlace::Stack(stack)) => {
                let stack = self.printed(&stack);
                // The innermost: a runtime waits for sockets within its timers.
                let mut said = stack.frames.iter().map(|frame| Waking::of(&frame.function));
                said.find(|it| *it != Waking::Other)
                    .unwrap_or(Waking::Other)
            }
            _ => Waking::Other,
        };
        self.by.insert(place, waking);
        waking
    }

    /// Returns the index of a place.
    fn place(&mut self, number: PlaceNumber) -> usize {
        if let Some(known) = self.places.get(&number) {
            return *known;
        }
        let place = match kept_place(number) {
            None => SeenPlace::default(),
            Some(KeptPlace::OwnCall(name, at)) => SeenPlace {
                what: name.to_string(),
                location: Some(self.names.index_of(&at.into())),
                function: None,
                is_own: true,
            },
            Some(KeptPlace::Stack(stack)) => {
                let stack = self.printed(&stack);
                if waits_for_thread(&stack) {
                    self.of_threads.insert(number);
                }
                self.place_of(&stack)
            }
        };
        // Several stacks may say the same.
        let known = self.made.iter().position(|other| *other == place);
        let index = known.unwrap_or_else(|| {
            self.made.push(place);
            self.made.len() - 1
        });
        self.places.insert(number, index);
        index
    }

    fn place_of(&mut self, stack: &PrintedStack) -> SeenPlace {
        let frames = stack.of_poll();
        // A library that was compiled without lines has a program's name. A line tells more.
        let has_line = |frame: &StackFrame| frame.place.is_some() && self.is_own(frame);
        let own = frames.iter().position(has_line);
        let own = own.or_else(|| frames.iter().position(|frame| self.is_own(frame)));
        let (above, own) = match own {
            Some(own) => (&frames[..own], Some(&frames[own])),
            None => (frames, None),
        };
        // A macro of a library has its lines there, in a function of the program.
        let of_program = own.map_or("", StackFrame::library);
        let is_called = |frame: &&StackFrame| {
            let is_same = !of_program.is_empty() && frame.library() == of_program;
            !is_same && !self.is_of_crate(frame)
        };
        let called = above.iter().rev().filter(is_called);
        let what = called.map(StackFrame::called).find(|what| !what.is_empty());
        let location = own.and_then(|frame| self.location(frame));
        SeenPlace {
            what: what.unwrap_or_default(),
            function: match location {
                Some(_) => None,
                None => own.map(|frame| frame.function.replace("::{{closure}}", "")),
            },
            location: location.map(|location| self.names.index_of(&location)),
            is_own: false,
        }
    }

    /// Whether a frame is one of the program's own sources.
    fn is_own(&self, frame: &StackFrame) -> bool {
        match &frame.place {
            Some((file, ..)) => !is_of_others(&self.here.join(file)),
            None => frame.is_named_by_program(),
        }
    }

    /// Whether a frame is one of this crate's own sources, or of the package that replaces tokio.
    fn is_of_crate(&self, frame: &StackFrame) -> bool {
        let file = frame.place.as_ref().map(|(file, ..)| self.here.join(file));
        file.is_some_and(|file| is_in_crate(&file))
    }

    fn location(&self, frame: &StackFrame) -> Option<SourceLocation> {
        let (file, line, column) = frame.place.as_ref()?;
        let file = self.here.join(file);
        let below = file.strip_prefix(&self.root).unwrap_or(&file);
        Some(SourceLocation {
            file: below.to_str()?.to_string(),
            line: *line,
            column: *column,
        })
    }
}

/// Whether a task that has kept its waker in this stack waits for a function of tokio's own.
fn waits_for_thread(stack: &PrintedStack) -> bool {
    let has = |frame: &StackFrame| THREADS.iter().any(|word| frame.function.contains(word));
    stack.of_poll().iter().any(has)
}

/// The folders of this crate's own sources, and of those over it.
const CRATE: [&str; 3] = ["/src/", "/stream/src/", "/tokio-recorded/src/"];

/// Whether a source is one of this crate, or of those over it.
fn is_in_crate(file: &Path) -> bool {
    let text = file.to_string_lossy();
    let in_crate = text.strip_prefix(env!("CARGO_MANIFEST_DIR"));
    in_crate.is_some_and(|rest| CRATE.iter().any(|folder| rest.starts_with(folder)))
}

/// Whether a source isn't the program's own. One that isn't there was compiled elsewhere.
fn is_of_others(file: &Path) -> bool {
    is_downloaded(&file.to_string_lossy()) || is_in_crate(file) || !file.is_file()
}
