//! Scripts.
// From crates/rw_script/src/script.rt, with its contracts as comments. //+
use crate::shim::Vec; //+

//~ ghost use Rattle.std.specs.Prelude.{◌≡◌, ◌≤◌, ◌<◌, ◌∷◌, None, All, length, IfErr};
//~ ghost use Rattle.rw_law.specs.declared.limits.TheConstants.{MOST_ACTORS};
//~ ghost use Rattle.rw_script.specs.declared.reader.TheConstants.{MOST_STEPS};
//~ ghost use Rattle.rw_lines.specs.Lines.{lines};
//~ ghost use Rattle.rw_world.specs.Openings.{refusal};
//~ ghost use Rattle.rw_script.specs.Faults.{Gives};
//~ ghost use Rattle.rw_script.specs.WellFormed.{IsScript, IsScriptStep};
//~ ghost use Rattle.rw_script.specs.Memory.{AsksMemory};
//~ ghost use Rattle.rw_script.specs.Script.{script_in};

use crate::source::rw_script::faults::{ScriptFault, ScriptFaultKind};
use crate::source::rw_script::reader::{ScriptReader, is_mark};
use crate::source::rw_script::steps::ScriptStep;
use crate::source::rw_lines::cut;
use crate::source::rw_world::Spec;
use crate::shim::alloc::Global;
//~ use std::marker::Model;

/// Channels, actors, and the calls that the actors make on the channels, in order.
//~ #[derive(Drop)]
pub struct Script {
    specs: Vec<Spec<u64>>,
    actors: u32,
    steps: Vec<ScriptStep>,
}

//~ impl Model for Script {
//~     ghost use Rattle.rw_script.specs.Script.{Script as Said};
//~     ghost use Rattle.rw_script.specs.WellFormed.{IsScript};
//~
//~     ghost Value = { Said };
//~
//~     ghost view = { λ s. record { specs = s.specs.items; actors = s.actors; steps = s.steps.items } };
//~
//~     ghost invariant = { λ s. IsScript (record { specs = s.specs.items; actors = s.actors; steps = s.steps.items }) };
//~ }

impl Script {
    /// Reads a script from these bytes, up to the line `---` or their end. Returns it, or its first fault.
    pub fn read(alloc: Global, bytes: &[u8]) -> Result<Script, ScriptFault>
//~         ensures given { Gives result (script_in (lines bytes.now)) }
        // An allocation can only fail at a line that allocates, after the lines before it were accepted.
//~         ensures memory { IfErr result (λ fault. fault.kind ≡ ScriptFaultKind.NoMemory → AsksMemory (lines bytes.now) fault.line) }
    {
        let mut reader = ScriptReader::new(alloc);
        let mut rest = bytes;
        'each_line: while !rest.is_empty() {
            let (line, more) = first_line(rest);
            if is_mark(line) {
                return reader.finish();
            }
            reader.read_line(line)?;
            rest = more;
        }
        reader.finish()
    }

    pub(crate) fn of(specs: Vec<Spec<u64>>, actors: u32, steps: Vec<ScriptStep>) -> Script
//~         requires { IsScript (record { specs = specs.items; actors = actors; steps = steps.items }) }
//~         ensures { result ≡ record { specs = specs.items; actors = actors; steps = steps.items } }
    {
        Script {
            specs,
            actors,
            steps,
        }
    }

    /// Returns what the channels are opened as.
    pub fn specs(&self) -> &[Spec<u64>]
//~         ensures specs { result.now ≡ self.now.specs }
//~         ensures opens { refusal result.now ≡ None }
    {
        self.specs.as_slice()
    }

    /// Returns the number of actors.
    pub fn actors(&self) -> u32
//~         ensures actors { result ≡ self.now.actors }
//~         ensures some { 1 ≤ result }
//~         ensures few { result ≤ MOST_ACTORS }
    {
        self.actors
    }

    /// Returns the calls, in the order of their lines.
    pub fn steps(&self) -> &[ScriptStep]
//~         ensures steps { result.now ≡ self.now.steps }
//~         ensures few { length result.now ≤ MOST_STEPS }
//~         ensures each { All (IsScriptStep self.now.specs self.now.actors) result.now }
        // The invariant of every script.
//~         ensures script { IsScript self.now }
    {
        self.steps.as_slice()
    }
}

/// Returns the first line, without its LF, and what follows it.
fn first_line(bytes: &[u8]) -> (&[u8], &[u8])
//~     requires { 0 < length bytes.now }
//~     ensures lines { lines bytes.now ≡ result.0.now ∷ lines result.1.now }
//~     ensures shorter { length result.1.now < length bytes.now }
{
    match cut(bytes, b'\n') {
        Some((line, rest)) => (line, rest),
        None => (bytes, b"".as_slice()),
    }
}
