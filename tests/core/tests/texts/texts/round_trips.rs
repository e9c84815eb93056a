//! Runs that are written into memory and read again.

use proved::Global;
use proved::rw_journal::Run;
use proved::rw_law::Payload;
use proved::rw_text::read;
use proved::rw_text::round_trip;
use std::fmt;
use std::fmt::Write;

/// Reads a run, writes it and reads it back. Returns how many entries it then has.
fn entries_read_back<V: Payload>(text: &[u8]) -> usize {
    let run: Run<V> = read(Global, text).unwrap();
    let again = round_trip(Global, &run).unwrap();
    again.entries().len()
}

/// Texts, and how many entries their runs have.
static TEXTS: [(&[u8], usize); 2] = [
    (b"ttd-journal 1\nwatch 7\nsteps\nend\n", 0),
    (
        b"ttd-journal 1\nbroadcast 4\nsteps\n1 0 0 send 0 7 = sent 1\n2 0 0 try-recv 1 = value 7\n3 0 0 drop 0 = dropped\nend\n",
        3,
    ),
];

#[test]
fn a_run_is_read_back() {
    for (text, entries) in &TEXTS {
        let found = entries_read_back::<u64>(text);
        assert_eq!(found, *entries);
    }
}

/// Appends the text of a run of this many calls on a watch.
fn push_calls(text: &mut String, calls: u64) -> fmt::Result {
    text.write_str("ttd-journal 2\nwatch 7\nsteps\n")?;
    for stamp in 1..=calls {
        writeln!(text, "{stamp} 0 0 send 0 {stamp} = stored")?;
    }
    text.write_str("end\n")
}

/// Returns that text.
fn text_of_calls(calls: u64) -> String {
    let mut text = String::new();
    push_calls(&mut text, calls).unwrap();
    text
}

#[test]
fn a_run_of_100_000_entries_is_read_back() {
    let text = text_of_calls(100_000);
    let found = entries_read_back::<u64>(text.as_bytes());
    assert_eq!(found, 100_000);
}
