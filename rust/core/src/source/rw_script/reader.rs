//! A script, read line by line: channel lines, an actors line, then step lines.
// From crates/rw_script/src/reader.rt, with its contracts as comments. //+
use crate::shim::Vec; //+

//~ ghost use Rattle.std.specs.Prelude.{◌≡◌, ◌+◌, ◌-◌, ◌^◌, ◌<◌, true, false, Some, map, option_map, slice_get, IfErr, OnErr, IfOk, OnOk};
//~ ghost use Rattle.rw_law.specs.declared.limits.TheConstants.{MOST_ACTORS};
//~ ghost use Rattle.rw_world.specs.declared.opening.TheConstants.{MOST_CHANNELS};
//~ ghost use Rattle.rw_script.specs.Memory.{Reads, ReadsLine};
//~ ghost use Rattle.rw_world.specs.Openings.{has_bad_capacity, spec_kind};
//~ ghost use Rattle.rw_script.specs.WellFormed.{IsScriptStep};
//~ ghost use Rattle.rw_script.specs.Script.{actors_of, after_line, script_at_end, is_in_head, is_mark, opening};
//~ ghost use Rattle.rw_script.specs.Script.{spec_for, with_head, with_line, with_said, with_spec, with_step};
//~ ghost use Rattle.rw_script.specs.StepLines.{said_of, target_in};
//~ ghost use Rattle.rw_words.specs.Words.{map_ok};

use crate::source::rw_script::faults::{ScriptFault, ScriptFaultKind};
use crate::source::rw_script::names::Names;
use crate::source::rw_script::said::{HeadLine, SaidCall, fields_of, read_said};
use crate::source::rw_script::script::Script;
use crate::source::rw_script::steps::ScriptStep;
use crate::source::rw_law::MOST_ACTORS;
use crate::source::rw_lines::{LONGEST_LINE, is_skipped};
use crate::source::rw_world::{ChannelKind, MOST_CAPACITY, MOST_CHANNELS, Spec};
use crate::shim::alloc::Global;
//~ use std::marker::Model;

/// The greatest number of step lines in a script.
pub const MOST_STEPS: usize = 1_048_576;

/// A reader of a script, with what it has read so far.
//~ #[derive(Drop)]
pub struct ScriptReader {
    alloc: Global,
    /// How many lines were read, including skipped ones.
    lines: u64,
    specs: Vec<Spec<u64>>,
    /// `None` before the actors line.
    actors: Option<u32>,
    steps: Vec<ScriptStep>,
    names: Names,
}

//~ impl Model for ScriptReader {
//~     ghost use Rattle.rw_script.specs.Script.{ScriptReader};
//~     ghost use Rattle.rw_script.specs.WellFormed.{IsReading};
//~
//~     ghost Value = { ScriptReader };
//~
//~     ghost view = { λ r. record { lines = r.lines; specs = r.specs.items; actors = r.actors; steps = r.steps.items; names = r.names } };
//~
//~     ghost invariant = { λ r. IsReading (record { lines = r.lines; specs = r.specs.items; actors = r.actors; steps = r.steps.items; names = r.names }) };
//~ }

impl ScriptReader {
    /// Creates a reader that has read no line.
    pub fn new(alloc: Global) -> ScriptReader
//~         ensures { result ≡ opening }
    {
        ScriptReader {
            alloc,
            lines: 0,
            specs: Vec::new(alloc),
            actors: None,
            steps: Vec::new(alloc),
            names: Names::new(alloc),
        }
    }

    /// Returns how many lines were read, including skipped ones.
    pub fn lines(&self) -> u64
//~         ensures { result ≡ self.now.lines }
    {
        self.lines
    }

    /// Reads the next line, which is given without its LF. On an error nothing has changed, and the fault is that of this line.
    /// Only a channel line or a step line allocates, once it has no other fault.
    pub fn read_line(&mut self, line: &[u8]) -> Result<(), ScriptFault>
//~         requires { self.old.lines < 2 ^ 64 - 1 }
//~         ensures taken { Reads result self.old self.new (after_line self.old line.now) }
//~         ensures lines { OnOk result (self.new.lines ≡ self.old.lines + 1) }
//~         ensures unchanged { OnErr result (self.new ≡ self.old) }
//~         ensures at { IfErr result (λ fault. fault.line ≡ self.old.lines + 1) }
    {
        self.lines += 1;
        match self.read_counted_line(line) {
            Ok(()) => Ok(()),
            Err(kind) => {
                let line = self.lines;
                self.lines -= 1;
                Err(ScriptFault { line, kind })
            }
        }
    }

    /// Ends the script, and returns it. It allocates nothing.
    pub fn finish(self) -> Result<Script, ScriptFault>
//~         requires { self.lines < 2 ^ 64 - 1 }
//~         ensures { result ≡ script_at_end self }
    {
        let ScriptReader {
            alloc: _,
            lines,
            specs,
            actors,
            steps,
            names,
        } = self;
        drop(names);
        if specs.is_empty() {
            drop(specs);
            drop(steps);
            return Err(ScriptFault {
                line: lines + 1,
                kind: ScriptFaultKind::NoChannels,
            });
        }
        Ok(Script::of(specs, actors.unwrap_or(1), steps))
    }

    /// Reads a line that was already counted.
//~     #[tactic(auto, unfolding(crate::specs::Script::with_line))]
    fn read_counted_line(&mut self, line: &[u8]) -> Result<(), ScriptFaultKind>
//~         ensures taken { ReadsLine result self.old self.new (with_line self.old line.now) }
//~         ensures unchanged { OnErr result (self.new ≡ self.old) }
//~         ensures lines { self.new.lines ≡ self.old.lines }
    {
        if line.len() > LONGEST_LINE {
            return Err(ScriptFaultKind::TooLong);
        }
        if is_skipped(line) {
            return Ok(());
        }
        if self.is_in_head() {
            match HeadLine::of(line) {
                Some(head) => self.add_head(head),
                None => self.read_step(line),
            }
        } else {
            self.read_step(line)
        }
    }

    /// Whether a channel line or an actors line may follow.
    fn is_in_head(&self) -> bool
//~         ensures { result ≡ is_in_head self.now }
    {
        self.actors.is_none() && self.steps.is_empty()
    }

    /// Adds a channel line or the actors line.
    fn add_head(&mut self, head: HeadLine) -> Result<(), ScriptFaultKind>
//~         requires { is_in_head self.old ≡ true }
//~         ensures taken { ReadsLine result self.old self.new (with_head self.old head) }
//~         ensures unchanged { OnErr result (self.new ≡ self.old) }
//~         ensures lines { self.new.lines ≡ self.old.lines }
    {
        match head {
            HeadLine::Broadcast(capacity) => {
                if capacity < 1 || capacity > u64::from(MOST_CAPACITY) {
                    return Err(ScriptFaultKind::BadCapacity);
                }
                self.add_spec(Spec::Broadcast(capacity as u32))
            }
            HeadLine::Watch(value) => self.add_spec(Spec::Watch(value)),
            HeadLine::Actors(actors) => {
                if actors < 1 || actors > u64::from(MOST_ACTORS) {
                    return Err(ScriptFaultKind::BadActors);
                }
                self.actors = Some(actors as u32);
                Ok(())
            }
        }
    }

    /// Adds a channel.
    fn add_spec(&mut self, spec: Spec<u64>) -> Result<(), ScriptFaultKind>
//~         requires head { is_in_head self.old ≡ true }
//~         requires good { has_bad_capacity spec ≡ false }
//~         ensures taken { ReadsLine result self.old self.new (with_spec self.old spec) }
//~         ensures unchanged { OnErr result (self.new ≡ self.old) }
//~         ensures lines { self.new.lines ≡ self.old.lines }
    {
        if self.specs.len() >= MOST_CHANNELS {
            return Err(ScriptFaultKind::TooManyChannels);
        }
        self.specs.push(spec).map_err(|_| ScriptFaultKind::NoMemory)
    }

    /// Reads a step line.
//~     #[tactic(auto, unfolding(crate::specs::Script::with_step))]
    fn read_step(&mut self, line: &[u8]) -> Result<(), ScriptFaultKind>
//~         ensures taken { ReadsLine result self.old self.new (with_step self.old line.now) }
//~         ensures unchanged { OnErr result (self.new ≡ self.old) }
//~         ensures lines { self.new.lines ≡ self.old.lines }
    {
        let (actor, channel, word, rest) = fields_of(line).ok_or(ScriptFaultKind::Syntax)?;
        let kind = self.kind_for(actor, channel)?;
        let said = read_said(kind, word, rest)?;
        let target = self.target_of(actor as u32, channel as u32, said.target)?;
        self.add_step(actor as u32, channel as u32, &said, target)
    }

    /// Returns the kind of the channel that an actor calls. Refuses an actor or a channel that the script lacks.
    fn kind_for(&self, actor: u64, channel: u64) -> Result<ChannelKind, ScriptFaultKind>
//~         ensures kind { result ≡ map_ok spec_kind (spec_for self.now actor channel) }
//~         ensures actor { OnOk result (actor < actors_of self.now) }
//~         ensures channel { IfOk result (λ kind. slice_get (map spec_kind self.now.specs) channel ≡ Some kind) }
//~         ensures small { OnOk result ((actor < MOST_ACTORS) × (channel < MOST_CHANNELS)) }
    {
        if actor >= u64::from(self.actors.unwrap_or(1)) {
            return Err(ScriptFaultKind::UnknownActor);
        }
        match self.specs.get(/*+*/crate::shim::saturated(/*+*/channel /*+*/)/*+*//*~as usize~*/) {
            Some(spec) => Ok(spec.kind()),
            None => Err(ScriptFaultKind::UnknownChannel),
        }
    }

    /// Returns the number of the name that stands for the handle, if there is one.
    fn target_of(
        &self,
        actor: u32,
        channel: u32,
        target: Option<&[u8]>,
    ) -> Result<Option<u32>, ScriptFaultKind>
//~         ensures { result ≡ target_in self.now.names actor channel (option_map (λ n. n.now) target.entry) }
    {
        let Some(name) = target else {
            return Ok(None);
        };
        match self.names.number(name, actor, channel) {
            Some(number) => Ok(Some(number as u32)),
            None => Err(ScriptFaultKind::UnknownName),
        }
    }

    /// Adds a step, with the name that it binds.
    fn add_step(
        &mut self,
        actor: u32,
        channel: u32,
        said: &SaidCall<'_>,
        target: Option<u32>,
    ) -> Result<(), ScriptFaultKind>
//~         requires step { IsScriptStep self.old.specs (actors_of self.old) (record {
//~           line = self.old.lines;
//~           actor = actor;
//~           channel = channel;
//~           call = said.now.call;
//~           target = target;
//~           binds = false;
//~         }) }
//~         ensures taken { ReadsLine result self.old self.new (with_said self.old actor channel (said_of said.now) target) }
//~         ensures unchanged { OnErr result (self.new ≡ self.old) }
//~         ensures lines { self.new.lines ≡ self.old.lines }
    {
        if self.names.is_bound_again(said.bound) {
            return Err(ScriptFaultKind::NameTaken);
        }
        if self.steps.len() >= MOST_STEPS {
            return Err(ScriptFaultKind::TooManySteps);
        }
        self.steps
            .reserve(1)
            .map_err(|_| ScriptFaultKind::NoMemory)?;
        let bound = self.names.bind(self.alloc, said.bound, actor, channel);
        bound.map_err(|_| ScriptFaultKind::NoMemory)?;
        self.steps.push_reserved(ScriptStep {
            line: self.lines,
            actor,
            channel,
            call: said.call,
            target,
            binds: said.bound.is_some(),
        });
        Ok(())
    }
}

/// Whether this is the line between script and console.
pub fn is_mark(line: &[u8]) -> bool
//~     ensures { result ≡ is_mark line.now }
{
    line == b"---".as_slice()
}
