//! Scripts, journal texts and whole inputs.

use crate::recorded::run_of;
use proved::rw_console::{Outcome, debug, session};
use proved::rw_lines::StreamFault;
use proved::rw_program::read_whole;
use proved::rw_script::{Script, ScriptFaultKind, run_one};
use proved::rw_text::{TextFault, read, salvage, write};
use proved::{Global, Vec};
use std::io::{self, Read};

/// A script that is refused for this reason, or its steps.
fn steps_of(text: &[u8], why: ScriptFaultKind) -> Option<Script> {
    match Script::read(Global, text) {
        Ok(script) => Some(script),
        Err(fault) => {
            assert_eq!(fault.kind, why);
            None
        }
    }
}

pub fn line(size: u64) -> bool {
    let text = format!("broadcast 1\n#{}\n", "x".repeat(size as usize - 1));
    steps_of(text.as_bytes(), ScriptFaultKind::TooLong).is_some()
}

pub fn steps(size: u64) -> bool {
    let text = format!("broadcast 1\n{}", "0 0 send 0 7\n".repeat(size as usize));
    let Some(script) = steps_of(text.as_bytes(), ScriptFaultKind::TooManySteps) else {
        return false;
    };
    let (run, waits) = run_one(Global, &script).unwrap();
    (run.len(), waits) == (size, None)
}

/// The text of a run of `size` sends, written without the crates.
fn text_of(size: u64) -> String {
    let mut text = "ttd-journal 2\nbroadcast 2\nsteps\n".to_string();
    for stamp in 1..=size {
        text += &format!("{stamp} 0 0 send 0 0 = sent 1\n");
    }
    text + "end\n"
}

pub fn journal(size: u64) -> bool {
    let text = text_of(size);
    let run = match read::<u64>(Global, text.as_bytes()) {
        Ok(run) => run,
        Err(fault) => {
            assert!(matches!(fault, TextFault::LimitExceeded(_)), "{fault:?}");
            return false;
        }
    };
    let (saved, bytes) = salvage::<u64>(Global, &text.as_bytes()[..text.len() - 4]).unwrap();
    let mut again = Vec::new(Global);
    let written = write(&run_of(size).unwrap(), &mut again).unwrap();
    assert_eq!(written, again.len() as u64);
    (run.len(), saved.len()) == (size, size) && bytes < text.len() as u64
}

pub fn bytes(size: u64) -> bool {
    match read_whole(Global, &mut io::repeat(b'x').take(size)) {
        Ok(whole) => whole.len() as u64 == size,
        Err(fault) => {
            assert_eq!(fault, StreamFault::TooMuch);
            false
        }
    }
}

pub fn script_channels(size: u64) -> bool {
    let text = "watch 0\n".repeat(size as usize);
    steps_of(text.as_bytes(), ScriptFaultKind::TooManyChannels).is_some()
}

pub fn script_capacity(size: u64) -> bool {
    let text = format!("broadcast {size}\n");
    steps_of(text.as_bytes(), ScriptFaultKind::BadCapacity).is_some()
}

pub fn script_actors(size: u64) -> bool {
    let text = format!("broadcast 1\nactors {size}\n");
    steps_of(text.as_bytes(), ScriptFaultKind::BadActors).is_some()
}

pub fn script_name(size: u64) -> bool {
    let name = "n".repeat(size as usize);
    let text = format!("broadcast 1\n0 0 clone-sender 0 as {name}\n");
    steps_of(text.as_bytes(), ScriptFaultKind::BadArguments).is_some()
}

/// The fault of a journal with these lines after its first, or None.
fn fault_of(lines: &str) -> Option<TextFault> {
    let text = format!("ttd-journal 2\n{lines}");
    read::<u64>(Global, text.as_bytes()).err()
}

/// Whether a journal is read. If not, a limit is exceeded in this line.
fn is_read(lines: &str, line: u64) -> bool {
    match fault_of(lines) {
        None => true,
        Some(fault) => {
            assert_eq!(fault, TextFault::LimitExceeded(line));
            false
        }
    }
}

pub fn journal_channels(size: u64) -> bool {
    let channels = "watch 0\n".repeat(size as usize);
    is_read(&format!("{channels}steps\nend\n"), size + 1)
}

pub fn journal_capacity(size: u64) -> bool {
    is_read(&format!("broadcast {size}\nsteps\nend\n"), 2)
}

/// No line that is accepted is as long. One that is no longer is malformed.
pub fn journal_line(size: u64) -> bool {
    let fault = fault_of(&format!("{}\n", "x".repeat(size as usize))).unwrap();
    assert!(matches!(
        fault,
        TextFault::Malformed(2) | TextFault::LimitExceeded(2)
    ));
    fault == TextFault::Malformed(2)
}

pub fn journal_actors(size: u64) -> bool {
    let entry = format!("1 {} 0 send 0 0 = sent 1", size - 1);
    is_read(&format!("broadcast 2\nsteps\n{entry}\nend\n"), 4)
}

pub fn journal_stamps(size: u64) -> bool {
    let entry = format!("{size} 0 0 send 0 0 = sent 1");
    is_read(&format!("broadcast 2\nsteps\n{entry}\nend\n"), 4)
}

/// Reads as many empty lines, which name no channel.
pub fn session_bytes(size: u64) -> bool {
    let mut output = Vec::new(Global);
    match session(Global, &mut io::repeat(b'\n').take(size), &mut output) {
        Ok(Outcome::Refused(fault)) => fault.kind == ScriptFaultKind::NoChannels,
        ended => {
            assert_eq!(ended, Err(StreamFault::TooMuch));
            false
        }
    }
}

/// Reads one command of as many bytes.
pub fn debug_bytes(size: u64) -> bool {
    let run = run_of(1).unwrap();
    let mut output = Vec::new(Global);
    match debug(Global, &run, &mut io::repeat(b'x').take(size), &mut output) {
        Ok(()) => output.as_slice().ends_with(b"bad command\n"),
        ended => {
            assert_eq!(ended, Err(StreamFault::TooMuch));
            false
        }
    }
}

/// Searches for as many conditions, and for the first once more.
pub fn debug_indexes(size: u64) -> bool {
    let run = run_of(1).unwrap();
    let commands: String = (0..size)
        .chain([0])
        .map(|channel| format!("rforward channel {channel}\n"))
        .collect();
    let mut output = Vec::new(Global);
    debug(Global, &run, &mut commands.as_bytes(), &mut output).unwrap();
    let output = String::from_utf8(output.to_vec()).unwrap();
    let mut lines = output.lines();
    let first = lines.next().unwrap();
    output.lines().count() as u64 == size + 1 && lines.all(|line| line == first)
}

/// A session whose script has a comment of `size` bytes.
pub fn session_line(size: u64) -> bool {
    let script = format!("broadcast 1\n#{}\n", "x".repeat(size as usize - 1));
    let mut output = Vec::new(Global);
    match session(Global, &mut script.as_bytes(), &mut output).unwrap() {
        Outcome::Refused(fault) => {
            assert_eq!(fault.kind, ScriptFaultKind::TooLong);
            false
        }
        _ => true,
    }
}

/// `size` searches over a long run, each past all its entries, for two conditions in turn. Both are indexed: without an index each
/// search looks at half a million entries.
pub fn debug_searches(size: u64) -> bool {
    const LONG: u64 = 500_000;
    let run = run_of(LONG).unwrap();
    let commands = "goto 0\nrforward channel 1\nrback actor 1\n".repeat(size as usize / 2);
    let mut output = Vec::new(Global);
    debug(Global, &run, &mut commands.as_bytes(), &mut output).unwrap();
    let output = String::from_utf8(output.to_vec()).unwrap();
    let hits = output.lines().filter(|line| line.starts_with("hit "));
    let last = format!("hit {} of {}", LONG + 1, LONG + 1);
    hits.filter(|line| *line == last).count() as u64 == size / 2
}
