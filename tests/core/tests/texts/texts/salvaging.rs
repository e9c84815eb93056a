//! Truncated journal texts, and other damage.

use super::rows::run_of;
use super::writing::{OLD, SMALL};
use crate::shared::written;
use proved::Global;
use proved::rw_journal::Run;
use proved::rw_law::Payload;
use proved::rw_text::TextFault;
use proved::rw_text::read;
use proved::rw_text::salvage;
use std::fmt;
use std::fmt::Write;

/// Salvages a text. Returns how many entries it has, and how many bytes its whole lines have.
fn held<V: Payload>(text: &[u8]) -> Result<(usize, u64), TextFault> {
    let (run, count): (Run<V>, u64) = salvage(Global, text)?;
    Ok((run.entries().len(), count))
}

/// Reads a text that isn't truncated. Returns how many entries it has.
fn read_whole<V: Payload>(text: &[u8]) -> Result<usize, TextFault> {
    let run: Run<V> = read(Global, text)?;
    Ok(run.entries().len())
}

/// Returns what a salvage of the first n bytes of the small text finds.
fn held_by_front(n: usize) -> Result<(usize, u64), TextFault> {
    match n {
        0..=31 => Err(TextFault::Truncated),
        32..=55 => Ok((0, 32)),
        56..=82 => Ok((1, 56)),
        83..=105 => Ok((2, 83)),
        106..=109 => Ok((3, 106)),
        _ => Ok((3, 110)),
    }
}

#[test]
fn a_text_is_cut_at_each_byte() {
    for n in 0..111 {
        let answer = held_by_front(n);
        assert_eq!(held::<u64>(&SMALL[..n]), answer, "case {}", n as u64);
        assert_eq!(held::<u64>(&OLD[..n]), answer, "case {}", n as u64);
    }
}

/// How many bytes of the small text are left, the part of it that is replaced, what replaces it, how many letters come after, and
/// the fault.
type Damage = (usize, &'static str, &'static str, usize, TextFault);

static DAMAGES: [Damage; 9] = [
    (83, "#", "", 257, TextFault::LimitExceeded(6)),
    (90, "value 7", "value 8", 0, TextFault::WrongReply(5)),
    (90, "send 0 7", "send 0 07", 0, TextFault::Malformed(4)),
    (90, "2 0 0 try", "1 0 0 try", 0, TextFault::WrongOrder(5)),
    (
        90,
        "2 0 0 try",
        "2 64 0 try",
        0,
        TextFault::LimitExceeded(5),
    ),
    // After the line `end`.
    (110, "#", "", 1, TextFault::Malformed(8)),
    // Without a line `steps`.
    (14, "broadcast", "broadcasts", 0, TextFault::Truncated),
    (26, "broadcast", "broadcasts", 0, TextFault::Truncated),
    (27, "broadcast", "broadcasts", 0, TextFault::Malformed(2)),
];

/// Returns the first n bytes of the small text, with `to` in place of `from`, and this many letters after them.
fn damaged(n: usize, from: &str, to: &str, letters: usize) -> Vec<u8> {
    let whole = std::str::from_utf8(SMALL).unwrap_or_default();
    let (front, rest) = whole.split_once(from).unwrap_or((whole, ""));
    let mut text = [front.as_bytes(), to.as_bytes(), rest.as_bytes()].concat();
    text.truncate(n);
    text.extend_from_slice(&[b'x'; 257][..letters.min(257)]);
    text
}

/// What a salvage of a text finds, and how many entries are read from it.
type Held = (Result<(usize, u64), TextFault>, Result<usize, TextFault>);

/// Salvages these bytes, and reads them.
fn held_and_read(text: &[u8]) -> Held {
    (held::<u64>(text), read_whole::<u64>(text))
}

/// Damages the small text, as `damaged` does, and returns what is found.
fn found_in_damaged(n: usize, from: &str, to: &str, letters: usize) -> Held {
    let text = damaged(n, from, to, letters);

    held_and_read(&text)
}

#[test]
fn other_damage_is_answered_as_where_it_is_read() {
    let long = found_in_damaged(83, "#", "", 256);
    let told = (Ok((2, 83)), Err(TextFault::Truncated));
    assert_eq!(long, told);
    for (n, from, to, letters, fault) in &DAMAGES {
        let found = found_in_damaged(*n, from, to, *letters);
        assert_eq!(found, (Err(*fault), Err(*fault)), "{to}");
    }
}

/// Appends 200 calls on three channels.
fn push_calls(script: &mut String) -> fmt::Result {
    script.write_str("broadcast 4\nwatch 5\nbroadcast 2\n")?;
    for i in 0..50u64 {
        write!(
            script,
            "0 0 send 0 {i}\n0 1 send 0 {i}\n0 2 send 0 {i}\n0 0 try-recv 1\n"
        )?;
    }
    Ok(())
}

/// Returns a script of these calls.
fn long_script() -> String {
    let mut script = String::new();
    push_calls(&mut script).unwrap();
    script
}

/// Returns how many whole lines these bytes have, and those lines.
fn lines_of(bytes: &[u8]) -> (usize, &[u8]) {
    let (mut count, mut length) = (0usize, 0usize);
    for (i, byte) in bytes.iter().enumerate() {
        if *byte == b'\n' {
            count = count.saturating_add(1);
            length = i.saturating_add(1);
        }
    }
    (count, bytes.get(..length).unwrap_or(bytes))
}

/// Salvages the run of a text and writes it. Returns what is written, and how many bytes the text's whole lines have.
fn written_of<V: Payload>(text: &[u8]) -> (Vec<u8>, u64) {
    let (run, count): (Run<V>, u64) = salvage(Global, text).unwrap();
    let text = text_of(&run);
    (text, count)
}

/// Returns the text of a run.
fn text_of<V: Payload>(run: &Run<V>) -> Vec<u8> {
    let (answer, text) = written(run, 4096, None);
    answer.unwrap();
    text
}

/// Asserts that a prefix of a long text that has these whole lines is salvaged with their entries.
fn is_kept(text: &[u8], lines: &[u8], entries: usize) {
    let (written, kept) = written_of::<u64>(text);
    let read = read_whole::<u64>(&written);
    let found = (kept, written.strip_suffix(b"end\n"), read);
    let told = (lines.len() as u64, Some(lines), Ok(entries));
    assert_eq!(found, told, "case {}", entries as u64);
    drop(written);
}

/// Asserts that a prefix of a long text has the entries of its whole lines, after the lines of its opening.
fn is_read_back(text: &[u8], opening: usize) {
    let (count, lines) = lines_of(text);
    if count >= opening {
        return is_kept(text, lines, count - opening);
    }
    let found = held::<u64>(text);
    assert_eq!(found, Err(TextFault::Truncated), "case {}", count as u64);
}

/// Returns the text of the run of a long script.
fn long_text() -> Vec<u8> {
    let script = long_script();
    text_of(&run_of(script.as_bytes()))
}

#[test]
fn each_front_of_a_long_text_is_read_back() {
    let whole = long_text();
    for n in 0..whole.len() {
        // The first line, three channels and `steps`.
        is_read_back(&whole[..n], 5);
    }
    let (found, length) = (held::<u64>(&whole), whole.len() as u64);
    assert_eq!(found, Ok((200, length)));
}
