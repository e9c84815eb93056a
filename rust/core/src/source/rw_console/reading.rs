//! Reads the script of a session, up to the line `---`.
// From crates/rw_console/src/reading.rt, with its contracts as comments. //+
use crate::shim::Vec; //+

//~ ghost use Rattle.std.specs.Prelude.{◌≡◌, ◌+◌, ◌-◌, ◌^◌, ◌<◌, Ok, Err, MatchOption, IfOk, IfErr};
//~ ghost use Rattle.rw_script.specs.Script.{opening, after_line};
//~ ghost use Rattle.rw_console.specs.ScriptReading.{GivesSessionScript, GivesLines, StopsInScript};

use crate::source::rw_lines::{NextShort, StreamFault, next_short_line};
use crate::source::rw_script::{Script, ScriptFault, ScriptFaultKind, ScriptReader, is_mark};
use crate::shim::alloc::Global;
use crate::shim::io::Read;

/// Where reading a script stopped.
#[derive(Clone, Copy)]
pub enum ScriptEnd {
    /// After the line `---`.
    Mark,
    /// At the reader's end.
    Reader,
    /// At the first line with a fault: after it, or where it is too long.
    Fault(ScriptFault),
}

/// What a session's bytes begin with.
//~ #[derive(Drop)]
pub enum SessionScript {
    /// A script; commands follow.
    Script(Script),
    /// A script, and nothing after it.
    Ended(Script),
    /// A script with a fault.
    Refused(ScriptFault),
}

/// Reads a line of the script, and returns its fault, if it has one.
fn read_line(script: &mut ScriptReader, line: &[u8]) -> Result<Option<ScriptFault>, StreamFault>
//~     requires { script.old.lines < 2 ^ 64 - 1 }
//~     ensures ok { IfOk result (λ o. MatchOption o
//~         ((after_line script.old line.now ≡ Ok script.new) × (script.new.lines ≡ script.old.lines + 1))
//~         (λ f. after_line script.old line.now ≡ Err f)) }
//~     ensures err { IfErr result (λ e. e ≡ StreamFault.NoMemory) }
{
    match script.read_line(line) {
        Ok(()) => Ok(None),
        Err(fault) => match fault.kind {
            ScriptFaultKind::NoMemory => Err(StreamFault::NoMemory),
            _ => Ok(Some(fault)),
        },
    }
}

/// Reads the lines of a script. Of a line that is too long, it reads no more than shows that.
fn read_lines<R: Read>(
    alloc: Global,
    reader: &mut R,
    allowed: &mut u64,
    script: &mut ScriptReader,
) -> Result<ScriptEnd, StreamFault>
//~     requires few { allowed.old < 2 ^ 63 }
//~     requires fresh { script.old ≡ opening }
//~     ensures ok { IfOk result (GivesLines (R.remaining reader.old) (R.remaining reader.new) allowed.old allowed.new script.new) }
//~     ensures err { IfErr result (StopsInScript (R.remaining reader.old) (R.remaining reader.new) allowed.old) }
{
    let mut line = Vec::new(alloc);
    'each_line: loop {
        match next_short_line(reader, allowed, &mut line)? {
            NextShort::End => return Ok(ScriptEnd::Reader),
            NextShort::TooLong => {
                return Ok(ScriptEnd::Fault(ScriptFault {
                    line: script.lines() + 1,
                    kind: ScriptFaultKind::TooLong,
                }));
            }
            NextShort::Last => {
                if is_mark(&line) {
                    return Ok(ScriptEnd::Reader);
                }
                match read_line(script, &line)? {
                    Some(fault) => return Ok(ScriptEnd::Fault(fault)),
                    None => return Ok(ScriptEnd::Reader),
                }
            }
            NextShort::Line => {
                if is_mark(&line) {
                    return Ok(ScriptEnd::Mark);
                }
                match read_line(script, &line)? {
                    Some(fault) => return Ok(ScriptEnd::Fault(fault)),
                    None => {}
                }
            }
        }
    }
}

/// Reads a script, up to the line `---`, its first fault, or the reader's end.
pub fn read_script<R: Read>(
    alloc: Global,
    reader: &mut R,
    allowed: &mut u64,
) -> Result<SessionScript, StreamFault>
//~     requires { allowed.old < 2 ^ 63 }
//~     ensures ok { IfOk result (GivesSessionScript (R.remaining reader.old) (R.remaining reader.new) allowed.old allowed.new) }
//~     ensures err { IfErr result (StopsInScript (R.remaining reader.old) (R.remaining reader.new) allowed.old) }
{
    let mut script = ScriptReader::new(alloc);
    match read_lines(alloc, reader, allowed, &mut script)? {
        ScriptEnd::Fault(fault) => Ok(SessionScript::Refused(fault)),
        ScriptEnd::Mark => match script.finish() {
            Ok(script) => Ok(SessionScript::Script(script)),
            Err(fault) => Ok(SessionScript::Refused(fault)),
        },
        ScriptEnd::Reader => match script.finish() {
            Ok(script) => Ok(SessionScript::Ended(script)),
            Err(fault) => Ok(SessionScript::Refused(fault)),
        },
    }
}
