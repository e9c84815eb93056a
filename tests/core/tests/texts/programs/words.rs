//! The words of the command line: what accepted words lead to, and what is printed for others.

use super::endings::Ending;
use super::files::{JOURNAL, SCRIPT};
use proved::rw_console::session;
use proved::rw_program::{
    Asked, Ended, Verb, over_opened, read_words, refuse_words, threads_over_opened,
};
use proved::{Global, RT, String};
use std::io::{Read, Write};
use support::devices::{FailingReader, FailingWriter};

fn word(text: &str) -> String {
    let mut word = String::new(Global);
    word.push_str(text).unwrap();
    word
}

/// Returns these words.
fn words_of(texts: &[&str]) -> Vec<String> {
    texts.iter().map(|text| word(text)).collect()
}

/// Words, and what they ask for.
static ASKED: [(&[&str], Asked<'static>); 9] = [
    (&["ttd", "session"], Asked::Session),
    (
        &["/bin/other", "record", "a b"],
        Asked::Over(Verb::Record, "a b"),
    ),
    // The flag may be on either side of the path.
    (&["ttd", "record", "x", "--threads"], Asked::Threads("x")),
    (&["ttd", "record", "--threads", "x"], Asked::Threads("x")),
    (
        &["ttd", "record", "--", "--threads"],
        Asked::Over(Verb::Record, "--threads"),
    ),
    (&["ttd", "check", "x"], Asked::Over(Verb::Check, "x")),
    (
        &["ttd", "debug", "../y.txt"],
        Asked::Over(Verb::Debug, "../y.txt"),
    ),
    (&["ttd", "salvage", "x"], Asked::Over(Verb::Salvage, "x")),
    // After two dashes a word is a path, whatever it begins with.
    (
        &["ttd", "check", "--", "--help"],
        Asked::Over(Verb::Check, "--help"),
    ),
];

/// Asserts that the words ask for this.
fn ask_for(words: &[String], asked: &Asked<'static>) {
    assert_eq!(read_words(words).unwrap(), *asked);
}

#[test]
fn words_are_taken() {
    for (texts, asked) in &ASKED {
        let words = words_of(texts);
        ask_for(&words, asked);
    }
}

/// The words, the contents of the file and of standard input, and how the run ends.
type Case = (
    &'static [&'static str],
    &'static [u8],
    &'static [u8],
    Ending,
);

/// Runs of each kind.
static CASES: [Case; 8] = [
    (
        &["ttd", "session"],
        b"",
        b"broadcast 1\n---\nback",
        (0, b"out of range, place 0 of 0\n", b""),
    ),
    (&["ttd", "record", "f"], SCRIPT, b"", (0, JOURNAL, b"")),
    (
        &["ttd", "record", "f", "--threads"],
        SCRIPT,
        b"",
        (0, JOURNAL, b""),
    ),
    (
        &["ttd", "record", "f"],
        JOURNAL,
        b"",
        (1, b"", b"script fault 1 syntax\n"),
    ),
    (&["ttd", "check", "f"], JOURNAL, b"", (0, b"ok 3\n", b"")),
    (
        &["ttd", "debug", "f"],
        JOURNAL,
        b"step",
        (0, b"#3 3 0 0 drop 0 = dropped\n", b""),
    ),
    (
        &["ttd", "salvage", "f"],
        JOURNAL,
        b"",
        (0, JOURNAL, b"kept 110 bytes\n"),
    ),
    (
        &["ttd", "debug", "f"],
        SCRIPT,
        b"step",
        (1, b"journal fault malformed 1\n", b""),
    ),
];

/// Runs what the words ask for.
fn led_to<F: Read, R: Read, W: Write>(
    words: &[String],
    file: F,
    input: &mut R,
    out: &mut W,
) -> Ended {
    match read_words(words) {
        Ok(Asked::Session) => Ended::of(session(Global, input, out)),
        Ok(Asked::Over(verb, _)) => over_opened(Global, verb, Ok(file), input, out),
        Ok(Asked::Threads(_)) => threads_over_opened(&RT, Global, Ok(file), out),
        Err(_) => refuse_words(Global, words),
    }
}

/// Asserts that a run that has ended has this status, output and line.
fn has_ended(ended: &Ended, out: &FailingWriter, ending: &Ending) {
    let found = (ended.status(), out.handed_on(), ended.line().as_bytes());
    assert_eq!(found, *ending);
}

/// Asserts that the words lead to this ending.
fn lead_to(words: &[String], (_, bytes, typed, ending): &Case) {
    let file = FailingReader::new(bytes, 64, None);
    let mut input = FailingReader::new(typed, 64, None);
    let mut out = FailingWriter::new(64, None);
    let ended = led_to(words, file, &mut input, &mut out);
    has_ended(&ended, &out, ending);
}

#[test]
fn each_word_leads_to_its_function() {
    for case in &CASES {
        let words = words_of(case.0);
        lead_to(&words, case);
    }
}

#[test]
fn words_that_are_not_taken() {
    let words = words_of(&["ttd", "walk"]);
    let ended = match read_words(&words) {
        Ok(_) => Ended::silent(0),
        Err(_) => refuse_words(Global, &words),
    };
    assert_eq!((ended.status(), ended.line()), (2, "refused: ttd walk"));
}
