//! Journal texts: read, written, written and read again, and salvaged.

use crate::met::{TRIES, refused, say, tried};
use proved::Global;
use proved::Vec;
use proved::rw_journal::Run;
use proved::rw_law::{NoMemory, Payload};
use proved::rw_text::{TextFault, WriteFault, read, round_trip, salvage, write};

/// The text of a journal of both channels.
pub static JOURNAL: &[u8] = b"ttd-journal 2
broadcast 2
watch 5
steps
1 0 0 subscribe 0 = new 2
2 0 0 send 0 1 = sent 2
3 1 1 send 0 6 = stored
4 0 0 try-recv 2 = value 1
5 1 1 clone-receiver 1 = new 2
6 1 1 update 2 = value 6
end
";

/// Of how many of its bytes something is salvaged: the last entry is cut off in its midst.
const CUT: usize = 180;

/// Reads a text.
pub fn read_text<V: Payload>(bytes: &[u8]) -> Result<Run<V>, TextFault> {
    for _ in 0..TRIES {
        match read(Global, bytes) {
            Err(TextFault::NoMemory) => refused(true),
            answer => return answer,
        }
    }
    Err(TextFault::NoMemory)
}

/// Salvages a text that was cut off.
fn salvage_text<V: Payload>(bytes: &[u8]) -> Result<(Run<V>, u64), TextFault> {
    for _ in 0..TRIES {
        match salvage(Global, bytes) {
            Err(TextFault::NoMemory) => refused(true),
            answer => return answer,
        }
    }
    Err(TextFault::NoMemory)
}

/// Writes a run, and reads it again.
fn write_and_read<V: Payload>(run: &Run<V>) -> Result<Run<V>, NoMemory> {
    tried(run, |run| run.len(), |run| round_trip(Global, run))
}

/// Writes the text of a run into memory. At a refusal its first bytes were written, as many as the fault says: they are the first
/// of what is wanted.
fn write_text<V: Payload>(run: &Run<V>, wanted: &[u8]) -> Result<Vec<u8>, WriteFault> {
    for _ in 0..TRIES {
        let mut bytes = Vec::new(Global);
        match write(run, &mut bytes) {
            Ok(_) => return Ok(bytes),
            Err(WriteFault(count)) => {
                refused(count == bytes.len() as u64 && wanted.starts_with(&bytes));
                drop(bytes);
            }
        }
    }
    Err(WriteFault(0))
}

/// Says how many bytes were written, and whether they are the text that was read.
fn say_written(written: Result<Vec<u8>, WriteFault>) {
    match written {
        Ok(bytes) => {
            let (length, is_same) = (bytes.len(), bytes.as_slice() == JOURNAL);
            drop(bytes);
            say!("  written: {length} bytes, as before: {is_same}")
        }
        Err(fault) => say!("  {fault:?}"),
    }
}

/// Plays a run that is written and read again.
fn play_again<V: Payload>(run: &Run<V>) {
    match write_and_read(run) {
        Ok(again) => say!("  read again: {} entries", again.len()),
        Err(NoMemory) => say!("  isn't read again"),
    }
}

/// Plays a run of a text.
fn play_run<V: Payload>(run: &Run<V>) {
    say!("  read: {} entries", run.len());
    say_written(write_text(run, JOURNAL));
    play_again(run)
}

/// How many entries are salvaged of a text, of how many bytes.
fn salvaged<V: Payload>(bytes: &[u8]) -> Result<(u64, u64), TextFault> {
    let (run, count): (Run<V>, u64) = salvage_text(bytes)?;
    Ok((run.len(), count))
}

/// Plays what a text that was cut off still holds.
fn play_cut<V: Payload>(cut: &[u8]) {
    match salvaged::<V>(cut) {
        Ok((length, bytes)) => say!("  salvaged: {length} entries of {bytes} bytes"),
        Err(fault) => say!("  {fault:?}"),
    }
}

/// Plays a text that is whole.
fn play_whole<V: Payload>(bytes: &[u8]) {
    let read: Result<Run<V>, TextFault> = read_text(bytes);
    match read {
        Ok(run) => {
            play_run(&run);
        }
        Err(fault) => say!("  {fault:?}"),
    }
}

/// Plays a text of values of any type, whole and cut off.
fn play_both<V: Payload>(bytes: &[u8]) {
    let (cut, _) = bytes.split_at(CUT.min(bytes.len()));
    play_whole::<V>(bytes);
    play_cut::<V>(cut)
}

/// Plays a journal text.
pub fn play() {
    say!("a journal text");
    play_both::<u64>(JOURNAL)
}
