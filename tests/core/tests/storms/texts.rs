//! Mutated scripts and journals: no call may fail, and an accepted journal has to be written again without loss.
//!
//! Each text is passed to `session`, or to `read` and `salvage`. A journal that is accepted has to be written again as its own bytes,
//! except for the number of its version, and `debug` runs commands over it.

use crate::mutations::Mutator;
use crate::samples::JOURNALS;
use crate::seeds;
use proved::Global;
use proved::rw_console::{debug, session};
use proved::rw_journal::Run;
use proved::rw_text::{TextFault, read, salvage, write};
use support::devices::{FailingReader, FailingWriter};

/// How many texts are tried for a seed.
const TEXTS: u64 = 300;

/// How many bytes a text has up to the number of its version, which is the last of them. A text of version 1 is written again
/// with another number, of as many bytes.
const VERSION_AT: usize = 13;

/// The last line of a text.
const LAST: &[u8] = b"end\n";

/// How often texts were accepted, so that a mutation that only ever breaks texts is noticed.
#[derive(Default)]
struct Tally {
    sessions: u32,
    read: u32,
    refused: u32,
    salvaged: u32,
}

/// Returns a text from after the number of its version.
fn behind_version(text: &[u8]) -> &[u8] {
    &text[VERSION_AT.min(text.len())..]
}

/// Returns the text of a run.
fn text_of(run: &Run<u64>) -> Vec<u8> {
    let mut text = FailingWriter::new(usize::MAX, None);
    write(run, &mut text).unwrap();
    text.written().to_vec()
}

/// Tries a session, reading at most 64 bytes at a time.
fn try_session(text: &[u8], tally: &mut Tally) {
    let mut reader = FailingReader::new(text, 64, None);
    session(Global, &mut reader, &mut FailingWriter::new(64, None)).unwrap();
    tally.sessions += 1;
}

/// Tries to read a journal. If it is accepted, commands are run over it, and it is written again as its own bytes.
fn try_journal(text: &[u8], commands: &[u8], tally: &mut Tally) {
    let run: Run<u64> = match read(Global, text) {
        Ok(run) => run,
        Err(fault) => {
            assert_ne!(fault, TextFault::NoMemory);
            tally.refused += 1;
            return;
        }
    };
    tally.read += 1;
    let mut reader = FailingReader::new(commands, 64, None);
    debug(Global, &run, &mut reader, &mut FailingWriter::new(64, None)).unwrap();
    assert_eq!(behind_version(&text_of(&run)), behind_version(text));
}

/// Tries to salvage a journal. What is salvaged is written again as the whole lines that it was read from, with its last line after
/// them or among them.
fn try_salvage(text: &[u8], tally: &mut Tally) {
    let (run, bytes): (Run<u64>, u64) = match salvage(Global, text) {
        Ok(salvaged) => salvaged,
        Err(fault) => return assert_ne!(fault, TextFault::NoMemory),
    };
    tally.salvaged += 1;
    let again = text_of(&run);
    let lines = behind_version(&text[..bytes as usize]);
    let rest = behind_version(&again).strip_prefix(lines);
    assert!(rest.is_some_and(|rest| rest.is_empty() || rest == LAST));
}

/// Tries one more text, a session or a journal.
fn try_text(mutator: &mut Mutator, tally: &mut Tally) {
    let commands = mutator.session();
    if mutator.flips() {
        return try_session(&commands, tally);
    }
    let text = mutator.journal();
    try_journal(&text, &commands, tally);
    try_salvage(&text, tally);
}

// Refused ones would test little when mutated.
#[test]
fn journals_to_be_mutated_are_accepted() {
    for text in JOURNALS {
        try_journal(text, b"", &mut Tally::default());
        assert!(read::<u64>(Global, text).is_ok());
    }
}

#[test]
fn mutated_texts_are_answered() {
    for seed in seeds() {
        let (mut mutator, mut tally) = (Mutator::new(seed), Tally::default());
        for _ in 0..TEXTS {
            try_text(&mut mutator, &mut tally);
        }
        let counts = [tally.sessions, tally.read, tally.refused, tally.salvaged];
        assert!(
            counts.iter().all(|count| *count > 0),
            "seed {seed}: {counts:?}"
        );
    }
}
