//! A walk over the places of a run.
// From crates/rw_console/src/walk.rt, with its contracts as comments. //+
use crate::shim::Vec; //+

//~ ghost use Rattle.std.specs.Prelude.{◌≡◌, ◌++◌, ◌≢◌, ◌≤◌, false, IfErr, IfOk, IfSome, OnOk, unwrap_or};
//~ ghost use Rattle.rw_journal.specs.Run.{IsRun};
//~ ghost use Rattle.rw_console.specs.Hits.{hit_above, hit_below};
//~ ghost use Rattle.rw_console.specs.Report.{output_of, place_of};
//~ ghost use Rattle.rw_navigator.specs.Moves.{answer_to, landing, place_after};
//~ ghost use Rattle.rw_navigator.specs.Places.{entry_to, last_place};

use crate::source::rw_console::command::Command;
use crate::source::rw_console::entries::push_entry;
use crate::source::rw_console::text::{push_hit, push_place, push_refusal};
use crate::source::rw_blocks::{push_json, push_world};
use crate::source::rw_journal::Run;
use crate::source::rw_law::{Entry, NoMemory, Reversible};
use crate::source::rw_navigator::{Cond, Debugger, Move, OutOfRange, Visitor};
use crate::source::rw_world::World;
use crate::shim::alloc::{AllocError, Global};
//~ use std::marker::Model;

/// A debugger that runs commands and writes their output. It goes to a place where that place's state is needed, and not before.
//~ #[derive(Drop)]
pub struct Walk {
    alloc: Global,
    debugger: Debugger<u64>,
    place: u64,
}

//~ impl Model for Walk {
//~     ghost use Rattle.std.specs.Prelude.{◌≤◌};
//~     ghost use Rattle.rw_console.specs.Walk.{Walk as Seen};
//~     ghost use Rattle.rw_navigator.specs.Places.{last_place as last_of};
//~
//~     ghost Value = { Seen };
//~
//~     ghost view = { λ a. record { run = a.debugger.run; place = a.place } };
//~
//~     ghost invariant = { λ a. a.place ≤ last_of a.debugger.run };
//~ }

impl Walk {
    /// Opens a walk at the last place of a run, with a copy of it.
    pub fn open(alloc: Global, run: &Run<u64>) -> Result<Walk, NoMemory>
//~         ensures run { IfOk result (λ walk. walk.run ≡ run.now) }
//~         ensures place { IfOk result (λ walk. walk.place ≡ last_place run.now) }
    {
        let debugger = Debugger::open(alloc, run)?;
        Ok(Walk::at_end(alloc, debugger))
    }

    /// Opens a walk at the last place of a run, and takes the run over: there is no second list of its entries. Without memory, it
    /// gives the run back.
    pub fn of_run(alloc: Global, run: Run<u64>) -> Result<Walk, Run<u64>>
//~         ensures run { IfOk result (λ walk. walk.run ≡ run) }
//~         ensures place { IfOk result (λ walk. walk.place ≡ last_place run) }
//~         ensures back { IfErr result (λ back. back ≡ run) }
    {
        match Debugger::of_run(alloc, run) {
            Ok(debugger) => Ok(Walk::at_end(alloc, debugger)),
            Err(run) => Err(run),
        }
    }

    /// Gives out the run, and what of the walk stays meanwhile. It allocates nothing.
    pub fn pause(self) -> (Run<u64>, PausedWalk)
//~         requires { IsRun self.run.specs self.run.entries }
//~         ensures run { result.0 ≡ self.run }
//~         ensures paused { result.1 ≡ self }
    {
        let Walk {
            alloc,
            debugger,
            place,
        } = self;
        let (run, visitor) = debugger.pause();
        let paused = PausedWalk {
            alloc,
            visitor,
            place,
        };
        (run, paused)
    }

    /// Opens a walk at the last place of a debugger's run.
    pub(crate) fn at_end(alloc: Global, debugger: Debugger<u64>) -> Walk
//~         ensures run { result.run ≡ debugger.run }
//~         ensures place { result.place ≡ last_place debugger.run }
    {
        Walk {
            alloc,
            place: debugger.len(),
            debugger,
        }
    }

    /// Returns how many entries the run has.
    pub(crate) fn len(&self) -> u64
//~         ensures { result ≡ last_place self.now.run }
    {
        self.debugger.len()
    }

    /// Returns the entry that leads to a place.
    fn entry_to(&self, place: u64) -> Option<Entry<World<u64>>>
//~         ensures entry { result ≡ entry_to self.now.run place }
//~         ensures recorded { IfSome result (λ e. ⟦<World<u64> as Reversible>⟧.is_waiting e.reply ≡ false) }
//~         ensures sent { IfSome result (λ e. ⟦<World<u64> as Reversible>⟧.is_straying e.reply ≡ false) }
    {
        if place == 0 {
            return None;
        }
        self.debugger.entry(place - 1)
    }

    /// Makes a move. One that leads to no place is refused, and changes nothing.
    pub fn step(&mut self, to: Move) -> Result<(), OutOfRange>
//~         ensures answer { result ≡ answer_to (last_place self.old.run) self.old.place to }
//~         ensures place { self.new.place ≡ landing (last_place self.old.run) self.old.place to }
//~         ensures run { self.new.run ≡ self.old.run }
    {
        match destination(to, self.place, self.debugger.len()) {
            Some(place) => {
                self.place = place;
                Ok(())
            }
            None => Err(OutOfRange),
        }
    }

    /// Makes a move, and appends its output.
    fn make_move(&mut self, to: Move, out: &mut Vec<u8>) -> Result<(), AllocError>
//~         ensures output { OnOk result (out.new.items ≡ out.old.items ++ output_of self.old.run self.old.place (Command.Move to)) }
//~         ensures place { OnOk result (self.new.place ≡ place_of self.old.run self.old.place (Command.Move to)) }
//~         ensures run { self.new.run ≡ self.old.run }
    {
        let answer = self.step(to);
        push_refusal(out, answer)?;
        push_place(out, self.debugger.len(), self.place)
    }

    /// Appends the state of the place.
    fn push_state(&mut self, out: &mut Vec<u8>) -> Result<(), AllocError>
//~         ensures output { OnOk result (out.new.items ≡ out.old.items ++ output_of self.old.run self.old.place Command.State) }
//~         ensures stays { self.new ≡ self.old }
    {
        bring(&mut self.debugger, self.place);
        push_place(out, self.debugger.len(), self.place)?;
        push_world(out, self.debugger.state())
    }

    /// Appends the state of the place as JSON.
    pub fn push_json(&mut self, out: &mut Vec<u8>) -> Result<(), AllocError>
//~         ensures output { OnOk result (out.new.items ≡ out.old.items ++ output_of self.old.run self.old.place Command.StateJson) }
//~         ensures stays { self.new ≡ self.old }
    {
        bring(&mut self.debugger, self.place);
        let world = self.debugger.state();
        push_json(self.alloc, out, world, self.debugger.len(), self.place)
    }

    /// Goes to a hit. Without a hit, the place stays the same.
    fn go_to(&mut self, found: Option<u64>)
//~         requires { IfSome found (λ hit. hit ≤ last_place self.old.run) }
//~         ensures place { self.new.place ≡ unwrap_or found self.old.place }
//~         ensures run { self.new.run ≡ self.old.run }
    {
        if let Some(hit) = found {
            self.place = hit;
        }
    }

    /// Goes to the nearest hit below the place, and returns it.
    fn back_to(&mut self, cond: Cond) -> Option<u64>
//~         ensures found { result ≡ hit_below self.old.run cond self.old.place }
//~         ensures place { self.new.place ≡ unwrap_or result self.old.place }
//~         ensures run { self.new.run ≡ self.old.run }
    {
        self.debugger.keep_index(self.alloc, cond);
        let Some(index) = self.debugger.index_of(cond) else {
            bring(&mut self.debugger, self.place);
            let found = self.debugger.back_to(&cond);
            self.place = self.debugger.place();
            return found;
        };
        let found = index.before(self.place);
        self.go_to(found);
        found
    }

    /// Goes to the nearest hit above the place, and returns it.
    fn forward_to(&mut self, cond: Cond) -> Option<u64>
//~         ensures found { result ≡ hit_above self.old.run cond self.old.place }
//~         ensures place { self.new.place ≡ unwrap_or result self.old.place }
//~         ensures run { self.new.run ≡ self.old.run }
    {
        self.debugger.keep_index(self.alloc, cond);
        let Some(index) = self.debugger.index_of(cond) else {
            bring(&mut self.debugger, self.place);
            let found = self.debugger.forward_to(&cond);
            self.place = self.debugger.place();
            return found;
        };
        let found = index.after(self.place);
        self.go_to(found);
        found
    }

    /// Goes to the nearest hit below the place, and appends the output.
    fn search_back(&mut self, cond: Cond, out: &mut Vec<u8>) -> Result<(), AllocError>
//~         ensures output { OnOk result (out.new.items ≡ out.old.items ++ output_of self.old.run self.old.place (Command.SearchBack cond)) }
//~         ensures place { OnOk result (self.new.place ≡ place_of self.old.run self.old.place (Command.SearchBack cond)) }
//~         ensures run { self.new.run ≡ self.old.run }
    {
        let from = self.place;
        let found = self.back_to(cond);
        push_hit(out, self.debugger.len(), from, found)
    }

    /// Goes to the nearest hit above the place, and appends the output.
    fn search_forward(&mut self, cond: Cond, out: &mut Vec<u8>) -> Result<(), AllocError>
//~         ensures output { OnOk result (out.new.items ≡ out.old.items ++ output_of self.old.run self.old.place (Command.SearchForward cond)) }
//~         ensures place { OnOk result (self.new.place ≡ place_of self.old.run self.old.place (Command.SearchForward cond)) }
//~         ensures run { self.new.run ≡ self.old.run }
    {
        let from = self.place;
        let found = self.forward_to(cond);
        push_hit(out, self.debugger.len(), from, found)
    }

    /// Appends the entry that leads to a place.
    pub(crate) fn push_step(&self, place: u64, out: &mut Vec<u8>) -> Result<(), AllocError>
//~         ensures { OnOk result (out.new.items ≡ out.old.items ++ output_of self.now.run place Command.Step) }
    {
        match self.entry_to(place) {
            Some(entry) => push_entry(out, place, &entry),
            None => out.extend_from_slice(b"no step\n"),
        }
    }

    /// Runs a command, and appends its output. `list` isn't run here: it has many entries, so they are written one by one with
    /// `push_step`.
    pub(crate) fn answer(&mut self, command: Command, out: &mut Vec<u8>) -> Result<(), AllocError>
//~         requires short { command ≢ Command.List }
//~         ensures output { OnOk result (out.new.items ≡ out.old.items ++ output_of self.old.run self.old.place command) }
//~         ensures place { OnOk result (self.new.place ≡ place_of self.old.run self.old.place command) }
//~         ensures run { self.new.run ≡ self.old.run }
    {
        match command {
            Command::Skip | Command::Quit => Ok(()),
            Command::Bad => out.extend_from_slice(b"bad command\n"),
            Command::State => self.push_state(out),
            Command::StateJson => self.push_json(out),
            Command::SearchBack(cond) => self.search_back(cond, out),
            Command::SearchForward(cond) => self.search_forward(cond, out),
            Command::Step => {
                let place = self.place;
                self.push_step(place, out)
            }
            Command::Move(to) => self.make_move(to, out),
            Command::List => unreachable!(),
        }
    }
}

/// A walk whose run others have: its world stays, with the indexes.
//~ #[derive(Drop)]
pub struct PausedWalk {
    alloc: Global,
    visitor: Visitor<u64>,
    place: u64,
}

//~ impl Model for PausedWalk {
//~     ghost use Rattle.std.specs.Prelude.{◌≤◌};
//~     ghost use Rattle.rw_console.specs.Walk.{Walk as Seen};
//~     ghost use Rattle.rw_navigator.specs.Places.{last_place as last_of};
//~
//~     ghost Value = { Seen };
//~
//~     ghost view = { λ a. record { run = a.visitor.run; place = a.place } };
//~
//~     ghost invariant = { λ a. a.place ≤ last_of a.visitor.run };
//~ }

impl PausedWalk {
    /// Returns the walk, which takes over the run again. It allocates nothing.
    pub fn resume(self, run: Run<u64>) -> Walk
//~         requires { run ≡ self.run }
//~         ensures { result ≡ self }
    {
        let PausedWalk {
            alloc,
            visitor,
            place,
        } = self;
        let debugger = visitor.resume(run);
        Walk {
            alloc,
            debugger,
            place,
        }
    }
}

/// Returns where a move leads from a place, or `None` if to none of the places 0 to `len`.
fn destination(to: Move, place: u64, len: u64) -> Option<u64>
//~     requires { place ≤ len }
//~     ensures place { result ≡ place_after len place to }
//~     ensures inside { IfSome result (λ p. p ≤ len) }
{
    match to {
        Move::Back(n) => place.checked_sub(n),
        Move::Forward(n) => place.checked_add(n).filter(|p| *p <= len),
        Move::Goto(n) => Some(n).filter(|p| *p <= len),
        Move::Start => Some(0),
        Move::End => Some(len),
    }
}

/// Brings a debugger to a place of its run.
fn bring(debugger: &mut Debugger<u64>, place: u64)
//~     requires { place ≤ last_place debugger.old.run }
//~     ensures place { debugger.new.place ≡ place }
//~     ensures run { debugger.new.run ≡ debugger.old.run }
{
    let _ = debugger.step(Move::Goto(place));
}
