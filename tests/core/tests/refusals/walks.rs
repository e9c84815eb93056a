//! Walks over a run: a navigator and a debugger of it, moves, and the index of a condition.

use crate::met::{refused, say, tried};
use crate::readings::SPECS;
use crate::runs::build;
use proved::rw_journal::Run;
use proved::rw_law::{Entry, NoMemory, Payload, Reversible};
use proved::rw_navigator::{Cond, Debugger, HitIndex, Move, Navigator, OutOfRange, Probe};
use proved::rw_world::{Spec, World};
use proved::shim::SliceExt;
use proved::{Global, Vec};

/// A list of moves, of which the second leaves the run.
static MOVES: [Move; 4] = [Move::Forward(9), Move::Back(10), Move::End, Move::Back(1)];

/// The hits next to a place, below it and above.
type Around = (Option<u64>, Option<u64>);

/// What walks over a run.
trait Walker {
    /// Its place, and how many calls it has made and taken back.
    fn stands(&self) -> (u64, u64);

    /// Makes the moves, and returns the result of each.
    fn walk(&mut self, moves: &[Move]) -> Result<Vec<Result<(), OutOfRange>>, NoMemory>;

    /// What an index of its condition on entries finds next to a place. Of a condition on states there is none.
    fn around(&self, place: u64) -> Result<Around, NoMemory>;
}

/// A navigator of any machine, and a condition.
struct Searching<R: Reversible, P> {
    navigator: Navigator<R>,
    cond: P,
}

impl<R: Reversible, P: Probe<R>> Walker for Searching<R, P> {
    fn stands(&self) -> (u64, u64) {
        (self.navigator.place(), self.navigator.turns())
    }

    fn walk(&mut self, moves: &[Move]) -> Result<Vec<Result<(), OutOfRange>>, NoMemory> {
        self.navigator.walk(Global, moves)
    }

    fn around(&self, place: u64) -> Result<Around, NoMemory> {
        if !self.cond.on_step() {
            return Err(NoMemory);
        }
        looked_up(HitIndex::build(Global, &self.navigator, &self.cond), place)
    }
}

/// A debugger, and a condition.
struct Debugging<V: Copy, P> {
    debugger: Debugger<V>,
    cond: P,
}

impl<V: Payload, P: Probe<World<V>>> Walker for Debugging<V, P> {
    fn stands(&self) -> (u64, u64) {
        (self.debugger.place(), self.debugger.turns())
    }

    fn walk(&mut self, moves: &[Move]) -> Result<Vec<Result<(), OutOfRange>>, NoMemory> {
        self.debugger.walk(Global, moves)
    }

    fn around(&self, place: u64) -> Result<Around, NoMemory> {
        if !self.cond.on_step() {
            return Err(NoMemory);
        }
        looked_up(self.debugger.hit_index(Global, &self.cond), place)
    }
}

/// What an index that was asked for finds next to a place.
fn looked_up<R: Reversible, P: Probe<R>>(
    built: Result<HitIndex<R, P>, NoMemory>,
    place: u64,
) -> Result<Around, NoMemory> {
    let index = built?;
    let around = (index.before(place), index.after(place));
    Ok(around)
}

/// A navigator at place 0, over a copy of these entries. Where it copies them itself, that is over its own list, and else over the
/// list that is handed to it. Where memory is refused, the machine is dropped.
fn opened<R: Reversible>(
    start: R,
    entries: &[Entry<R>],
    copies: bool,
) -> Result<Navigator<R>, NoMemory> {
    if copies {
        return Navigator::open(Global, start, entries);
    }
    match entries.try_to_vec(Global) {
        Ok(entries) => Navigator::over(start, entries),
        Err(_) => Err(NoMemory),
    }
}

/// The same of a run.
fn open_navigator<V: Copy>(run: &Run<V>, copies: bool) -> Result<Navigator<World<V>>, NoMemory> {
    opened(run.start(Global)?, run.entries(), copies)
}

/// The same, with one retry.
fn new_navigator<V: Copy>(run: &Run<V>, copies: bool) -> Result<Navigator<World<V>>, NoMemory> {
    let length = run.len();
    match open_navigator(run, copies) {
        Ok(navigator) => Ok(navigator),
        Err(NoMemory) => {
            refused(run.len() == length);
            open_navigator(run, copies)
        }
    }
}

/// A debugger of a run at place 0.
fn new_debugger<V: Copy>(run: &Run<V>) -> Result<Debugger<V>, NoMemory> {
    let length = run.len();
    match Debugger::open(Global, run) {
        Ok(debugger) => Ok(debugger),
        Err(NoMemory) => {
            refused(run.len() == length);
            Debugger::open(Global, run)
        }
    }
}

/// A debugger that takes over a run, at place 0. A run that it gives back is as it was.
fn taken_over<V: Copy>(run: Run<V>) -> Result<Debugger<V>, NoMemory> {
    let length = run.len();
    let run = match Debugger::of_run(Global, run) {
        Ok(debugger) => return Ok(debugger),
        Err(run) => run,
    };
    refused(run.len() == length);
    Debugger::of_run(Global, run).map_err(|_run| NoMemory)
}

/// Makes the moves, with retries.
fn walk<W: Walker>(walker: &mut W) -> Result<Vec<Result<(), OutOfRange>>, NoMemory> {
    tried(
        walker,
        |walker| walker.stands(),
        |walker| walker.walk(&MOVES),
    )
}

/// Returns what an index finds next to a place, with retries.
fn around<W: Walker>(walker: &W, place: u64) -> Result<Around, NoMemory> {
    tried(
        walker,
        |walker| walker.stands(),
        |walker| walker.around(place),
    )
}

/// Makes the moves, and says what each answered and the place after them.
fn say_walk<W: Walker>(walker: &mut W) {
    let Ok(answers) = walk(walker) else {
        return say!("  isn't walked");
    };
    let (place, _) = walker.stands();
    say!("  {:?}, then place {place}", answers.as_slice());
}

/// Says what an index finds next to place 20.
fn say_around<W: Walker>(walker: &W) {
    match around(walker, 20) {
        Ok(around) => say!("  around place 20: {around:?}"),
        Err(NoMemory) => say!("  no index"),
    }
}

/// Plays a walker, and its index if that is looked up too.
fn play_walker<W: Walker>(mut walker: W, looks_up: bool) {
    say_walk(&mut walker);
    if looks_up {
        say_around(&walker);
    }
}

/// Plays a navigator that was asked for, and the index of a condition if that is looked up too.
fn play_navigator<R: Reversible, P: Probe<R> + Copy>(
    opened: Result<Navigator<R>, NoMemory>,
    cond: P,
    looks_up: bool,
) {
    match opened {
        Ok(navigator) => play_walker(Searching { navigator, cond }, looks_up),
        Err(NoMemory) => say!("  isn't opened"),
    }
}

/// Plays a navigator of a run, and an index of the entries by actor 1 if that is looked up too. It is over its own copy of the entries, or
/// over one that is handed to it.
fn play_navigator_of<V: Payload>(run: &Run<V>, copies: bool) {
    let navigator = new_navigator(run, copies);
    play_navigator(navigator, Cond::Actor(1), copies)
}

/// Plays a debugger, and an index of its entries on channel 0.
fn play_debugger<V: Payload>(debugger: Result<Debugger<V>, NoMemory>) {
    match debugger {
        Ok(debugger) => {
            let cond = Cond::Channel(0);
            play_walker(Debugging { debugger, cond }, true)
        }
        Err(NoMemory) => say!("  isn't opened"),
    }
}

/// Plays a navigator of a run with an index, a navigator over entries of its own, and a debugger of the run with an index.
fn play_run<V: Payload>(run: &Run<V>) {
    play_navigator_of(run, true);
    play_navigator_of(run, false);
    play_debugger(new_debugger(run))
}

/// Plays walks over a run of these specs that is built for them, and then one that takes it over.
fn play_built<V: Payload>(specs: &[Spec<V>]) {
    let Some(run) = build(specs) else {
        return say!("  no run");
    };
    play_run(&run);
    play_debugger(taken_over(run));
}

/// Plays walks.
pub fn play() {
    say!("walks");
    play_built(&SPECS)
}
