//! Whole inputs.
// From crates/rw_program/src/inputs.rt, with its contracts as comments. //+
use crate::shim::Vec; //+

//~ ghost use Rattle.std.specs.Prelude.{◌≤◌, length, IfOk, IfErr};
//~ ghost use Rattle.std.specs.Io.KnownBytes.{Consumes, IsAtEnd};
//~ ghost use Rattle.rw_program.specs.Files.{StopsReading};

use crate::source::rw_console::MOST_BYTES;
use crate::source::rw_lines::StreamFault;
use crate::shim::alloc::Global;
use crate::shim::io::Read;

/// How many bytes are read at a time.
const PIECE: usize = 65_536;

/// Reads all bytes of a reader. More than 268,435,456 are an error.
pub fn read_whole<R: Read>(alloc: Global, reader: &mut R) -> Result<Vec<u8>, StreamFault>
//~     ensures read { IfOk result (λ bytes. Consumes (R.remaining reader.old) (R.remaining reader.new) bytes.items) }
//~     ensures few { IfOk result (λ bytes. length bytes.items ≤ MOST_BYTES) }
//~     ensures whole { IfOk result (λ bytes. IsAtEnd (R.remaining reader.new)) }
//~     ensures fault { IfErr result (λ fault. StopsReading (R.remaining reader.old) (R.remaining reader.new) fault) }
{
    let mut bytes = Vec::new(alloc);
    let mut piece = [0u8; PIECE];
    'each_piece: loop {
        let Ok(taken) = reader.read(&mut piece) else {
            return Err(StreamFault::Read);
        };
        if taken == 0 {
            return Ok(bytes);
        }
        if bytes.len() as u64 + taken as u64 > MOST_BYTES {
            return Err(StreamFault::TooMuch);
        }
        bytes.extend_from_slice(&piece[..taken])?;
    }
}
