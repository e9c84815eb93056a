//! Lines that are read into memory, and numerals that are put there.

use crate::met::{TRIES, refused, say};
use proved::rw_lines::{Next, StreamFault, next_line, push_number};
use proved::{AllocError, Global, Vec};
use support::devices::FailingReader;

/// A line that is longer than the room that is taken first, and what follows it.
static BYTES: &[u8] = b"a line of more than sixteen bytes\nand what follows\n";

/// The first line of these bytes. At a refusal a part of it came, and that is no more than was read.
fn first_line(bytes: &[u8]) -> Result<(Next, Vec<u8>), StreamFault> {
    for _ in 0..TRIES {
        let mut reader = FailingReader::new(bytes, 1, None);
        let (mut line, mut allowed) = (Vec::new(Global), 1000);
        match next_line(&mut reader, &mut allowed, &mut line) {
            Ok(next) => return Ok((next, line)),
            Err(StreamFault::NoMemory) => refused(bytes.starts_with(&line)),
            Err(fault) => return Err(fault),
        }
    }
    Err(StreamFault::NoMemory)
}

/// Appends a numeral. At a refusal nothing is appended.
fn append(out: &mut Vec<u8>, number: u64) -> Result<(), AllocError> {
    let length = out.len();
    for _ in 0..TRIES {
        match push_number(out, number) {
            Ok(()) => return Ok(()),
            Err(AllocError) => refused(out.len() == length),
        }
    }
    Err(AllocError)
}

/// Appends some numerals, and says how many bytes there are after each.
fn append_all(out: &mut Vec<u8>) {
    for number in [0, 7_000_000_000, 18_446_744_073_709_551_615] {
        say!("  {:?}, {} bytes", append(out, number), out.len());
    }
}

/// Plays a line and some numerals.
pub fn play() {
    match first_line(BYTES) {
        Ok((next, line)) => {
            let length = line.len();
            drop(line);
            say!("a line: {next:?}, {length} bytes");
        }
        Err(fault) => say!("no line: {fault:?}"),
    }
    let mut out = Vec::new(Global);
    append_all(&mut out);
    drop(out);
}
