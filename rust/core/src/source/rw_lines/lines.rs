//! Lines of bytes.
// From crates/rw_lines/src/lines.rt, with its contracts as comments. //+
use crate::shim::Vec; //+

//~ ghost use Rattle.std.specs.Prelude.{◌≡◌, ◌+◌, ◌-◌, ◌≤◌, length, IfOk, IfErr};
//~ ghost use Rattle.rw_lines.specs.Lines.{is_skipped};
//~ ghost use Rattle.rw_lines.specs.Reading.{GivesNext, GivesNextShort, IsKept, StopsInLine};

use crate::source::rw_lines::streams::{StreamFault, next_byte};
use crate::shim::io::Read;

/// The most bytes that a line may have, without its LF.
pub const LONGEST_LINE: usize = 256;

/// What `next_line` read.
#[derive(Clone, Copy, Debug, PartialEq, Eq)]
pub enum Next {
    /// A line that ended with LF.
    Line,
    /// The last line, which lacks its LF.
    Last,
    /// No byte was left.
    End,
}

/// What `next_short_line` read.
#[derive(Clone, Copy, Debug, PartialEq, Eq)]
pub enum NextShort {
    /// A line that ended with LF.
    Line,
    /// The last line, which lacks its LF.
    Last,
    /// The first bytes of a line that is too long: one more than the longest line has.
    TooLong,
    /// No byte was left.
    End,
}

/// Reads the next line into `line`, without its LF, as `next_line` does. But it stops as soon as the line is too long, and so
/// reads one byte more than the longest line has at most.
///
/// `allowed` is how many more bytes may be read, and counts down. After an `Err`, `allowed` shows how many bytes were read, and
/// `line` has those that were stored.
pub fn next_short_line<R: Read>(
    reader: &mut R,
    allowed: &mut u64,
    line: &mut Vec<u8>,
) -> Result<NextShort, StreamFault>
//~     ensures ok { IfOk result (GivesNextShort (R.remaining reader.old) (R.remaining reader.new)
//~         allowed.old allowed.new line.new.items) }
//~     ensures few { allowed.old ≤ allowed.new + (LONGEST_LINE + 1) }
//~     ensures err { IfErr result
//~         (StopsInLine (R.remaining reader.old) (R.remaining reader.new) allowed.old) }
//~     ensures kept { IfErr result (IsKept (allowed.old - allowed.new) (length line.new.items)) }
{
    line.clear();
    'each_byte: loop {
        let Some(byte) = next_byte(reader)? else {
            return Ok(if line.is_empty() {
                NextShort::End
            } else {
                NextShort::Last
            });
        };
        if *allowed == 0 {
            return Err(StreamFault::TooMuch);
        }
        *allowed -= 1;
        if byte == b'\n' {
            return Ok(NextShort::Line);
        }
        line.push(byte)?;
        if line.len() > LONGEST_LINE {
            return Ok(NextShort::TooLong);
        }
    }
}

/// Reads the next line into `line`, without its LF. Of a line that is too long, it stores one byte more than the longest line
/// has, which shows that the line is too long.
///
/// `allowed` is how many more bytes may be read, and counts down. Memory is allocated only until `line` has held the longest
/// line. After an `Err`, `allowed` shows how many bytes were read, and `line` has those that were stored.
pub fn next_line<R: Read>(
    reader: &mut R,
    allowed: &mut u64,
    line: &mut Vec<u8>,
) -> Result<Next, StreamFault>
//~     ensures ok { IfOk result (GivesNext (R.remaining reader.old) (R.remaining reader.new)
//~         allowed.old allowed.new line.new.items) }
//~     ensures err { IfErr result
//~         (StopsInLine (R.remaining reader.old) (R.remaining reader.new) allowed.old) }
//~     ensures kept { IfErr result (IsKept (allowed.old - allowed.new) (length line.new.items)) }
{
    match next_short_line(reader, allowed, line)? {
        NextShort::Line => return Ok(Next::Line),
        NextShort::Last => return Ok(Next::Last),
        NextShort::End => return Ok(Next::End),
        NextShort::TooLong => {}
    }
    'each_byte: loop {
        let Some(byte) = next_byte(reader)? else {
            return Ok(Next::Last);
        };
        if *allowed == 0 {
            return Err(StreamFault::TooMuch);
        }
        *allowed -= 1;
        if byte == b'\n' {
            return Ok(Next::Line);
        }
    }
}

/// Whether a line is to be skipped: it is empty, or begins with `#`.
pub fn is_skipped(line: &[u8]) -> bool
//~     ensures { result ≡ is_skipped line.now }
{
    match line {
        [] => true,
        [first, ..] => *first == b'#',
    }
}
