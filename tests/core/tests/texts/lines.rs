//! Lines and pieces over readers and writers that work in small pieces and fail at a call.

use proved::Global;
use proved::rw_lines::{Next, NextShort, ShortWrite, StreamFault, flush, put, put_whole};
use proved::rw_lines::{next_line, next_short_line};
use std::io::{Read, Write};
use support::devices::{FailingReader, FailingWriter};

const INPUT: &[u8] = b"ab\ncd";

/// The input, the result of a request for its first line, that line, and what is left.
type FirstLine = (&'static [u8], Next, &'static [u8], &'static [u8]);

static FIRST_LINES: [FirstLine; 6] = [
    (b"", Next::End, b"", b""),
    (b"\n\n", Next::Line, b"", b"\n"),
    (b"a\r\nb", Next::Line, b"a\r", b"b"),
    (b"a\r", Next::Last, b"a\r", b""),
    (b"\xff\xfe\nb\n", Next::Line, b"\xff\xfe", b"b\n"),
    (b"# a\0", Next::Last, b"# a\0", b""),
];

/// Asserts that a reader that returns `most` bytes at a call returns this line first.
fn gives_first_line(
    reader: &mut FailingReader,
    line: &mut proved::Vec<u8>,
    most: usize,
    (_, next, want, rest): &FirstLine,
) {
    let answer = next_line(reader, &mut 8, line);
    let found = (answer, line.as_slice(), reader.unread());
    assert_eq!(found, (Ok(*next), *want, *rest), "case {}", most as u64);
}

#[test]
fn reads_lines_of_any_bytes() {
    let mut line = proved::Vec::new(Global);
    for case in &FIRST_LINES {
        let mut by_one = FailingReader::new(case.0, 1, None);
        gives_first_line(&mut by_one, &mut line, 1, case);
        let mut by_seven = FailingReader::new(case.0, 7, None);
        gives_first_line(&mut by_seven, &mut line, 7, case);
    }
}

/// Returns this many letters, LF and one more letter.
fn long_line(length: usize) -> Vec<u8> {
    let mut input = vec![b'x'; length];
    input.extend_from_slice(b"\ny");
    input
}

/// Returns the results of two requests for lines, and how long the first line is.
fn two_lines<R: Read>(
    reader: &mut R,
    mut allowed: u64,
    line: &mut proved::Vec<u8>,
) -> ([Result<Next, StreamFault>; 2], usize) {
    let first = next_line(reader, &mut allowed, line);
    let length = line.len();
    ([first, next_line(reader, &mut allowed, line)], length)
}

/// How long a line is, and how many bytes of it are stored.
static LENGTHS: [(usize, usize); 5] = [(255, 255), (256, 256), (257, 257), (258, 257), (700, 257)];

/// Asserts that a line of this length is read, with `kept` of its bytes stored, and then the next line.
fn keeps(input: &[u8], line: &mut proved::Vec<u8>, length: usize, kept: usize) {
    let (answers, found) = two_lines(&mut FailingReader::new(input, 7, None), 702, line);
    let told = [Ok(Next::Line), Ok(Next::Last)];
    assert_eq!(
        (answers, found, line.as_slice()),
        (told, kept, b"y".as_slice()),
        "case {}",
        length as u64
    );
}

#[test]
fn keeps_enough_of_long_lines() {
    let mut line = proved::Vec::new(Global);
    for (length, kept) in &LENGTHS {
        let input = long_line(*length);
        keeps(&input, &mut line, *length, *kept);
        drop(input);
    }
}

/// How long a line is, what is read of it, and how many bytes of it and of what follows it are left.
static SHORT_LENGTHS: [(usize, NextShort, usize); 5] = [
    (0, NextShort::Line, 1),
    (256, NextShort::Line, 1),
    (257, NextShort::TooLong, 2),
    (258, NextShort::TooLong, 3),
    (700, NextShort::TooLong, 445),
];

#[test]
fn short_lines_are_read_and_no_others() {
    let mut line = proved::Vec::new(Global);
    for (length, next, unread) in &SHORT_LENGTHS {
        let input = long_line(*length);
        let mut reader = FailingReader::new(&input, 7, None);
        let answer = next_short_line(&mut reader, &mut 702, &mut line);
        let found = (answer, line.len(), reader.unread().len());
        assert_eq!(found, (Ok(*next), *length.min(&257), *unread));
    }
}

#[test]
fn a_line_is_too_long_before_a_read_fails() {
    let input = long_line(300);
    let mut line = proved::Vec::new(Global);
    let mut reader = FailingReader::new(&input, 1, Some(257));
    let short = next_short_line(&mut reader, &mut 257, &mut line);
    let failed = next_short_line(&mut reader, &mut 257, &mut line);
    drop(line);
    assert_eq!(
        (short, failed),
        (Ok(NextShort::TooLong), Err(StreamFault::Read))
    );
}

#[test]
fn stops_at_the_first_byte_too_much() {
    let mut line = proved::Vec::new(Global);
    let (few, _) = two_lines(&mut FailingReader::new(INPUT, 1, None), 3, &mut line);
    let (enough, _) = two_lines(&mut FailingReader::new(INPUT, 1, None), 5, &mut line);
    drop(line);
    let too_much = [Ok(Next::Line), Err(StreamFault::TooMuch)];
    assert_eq!(few, too_much);
    assert_eq!(enough, [Ok(Next::Line), Ok(Next::Last)]);
}

/// Whether requests for lines have these results.
fn answers<R: Read>(
    reader: &mut R,
    allowed: &mut u64,
    line: &mut proved::Vec<u8>,
    wants: &[Next],
) -> bool {
    let mut answers = true;
    for want in wants {
        answers = answers && next_line(reader, allowed, line) == Ok(*want);
    }
    answers
}

/// How many reads succeed, the results of the requests for lines before one that fails, and what is left. Six reads return the
/// five bytes one by one and then the end. The seventh returns the end again.
static FAILED_READS: [(u64, &[Next], &[u8]); 7] = [
    (0, &[], b"ab\ncd"),
    (1, &[], b"b\ncd"),
    (2, &[], b"\ncd"),
    (3, &[Next::Line], b"cd"),
    (4, &[Next::Line], b"d"),
    (5, &[Next::Line], b""),
    (6, &[Next::Line, Next::Last], b""),
];

/// Asserts that a reader that fails after this many calls has these results, and leaves these bytes.
fn fails_behind(line: &mut proved::Vec<u8>, calls: u64, wants: &[Next], unread: &[u8]) {
    let mut reader = FailingReader::new(INPUT, 1, Some(calls));
    let mut allowed = 5;
    let answered = answers(&mut reader, &mut allowed, line, wants);
    let failed = next_line(&mut reader, &mut allowed, line);
    let found = (answered, failed, reader.unread());
    assert_eq!(
        found,
        (true, Err(StreamFault::Read), unread),
        "case {calls}"
    );
}

#[test]
fn stops_at_each_failed_read() {
    let mut line = proved::Vec::new(Global);
    for (calls, wants, unread) in &FAILED_READS {
        fails_behind(&mut line, *calls, wants, unread);
    }
}

/// Writes the bytes. Returns the result, and if all were written, whether a flush after that succeeds.
fn put_and_flush<W: Write>(writer: &mut W, bytes: &[u8]) -> (Result<(), ShortWrite>, Option<bool>) {
    match put(writer, bytes) {
        Ok(()) => (Ok(()), Some(flush(writer).is_ok())),
        Err(short) => (Err(short), None),
    }
}

/// How many bytes a writer accepts at a call, how many calls succeed, the result for the five bytes, which of them were written,
/// whether a flush succeeds, and how many flushes did.
type Writing = (
    usize,
    Option<u64>,
    Result<(), ShortWrite>,
    &'static [u8],
    Option<bool>,
    u64,
);

/// Five writes write the five bytes one by one. The sixth call is the flush.
static WRITINGS: [Writing; 8] = [
    (1, Some(0), Err(ShortWrite { written: 0 }), b"", None, 0),
    (1, Some(1), Err(ShortWrite { written: 1 }), b"a", None, 0),
    (1, Some(2), Err(ShortWrite { written: 2 }), b"ab", None, 0),
    (1, Some(3), Err(ShortWrite { written: 3 }), b"ab\n", None, 0),
    (
        1,
        Some(4),
        Err(ShortWrite { written: 4 }),
        b"ab\nc",
        None,
        0,
    ),
    (1, Some(5), Ok(()), INPUT, Some(false), 0),
    (1, Some(6), Ok(()), INPUT, Some(true), 1),
    (0, None, Err(ShortWrite { written: 0 }), b"", None, 0),
];

/// Asserts that a writer has these results.
fn takes(writer: &mut FailingWriter, (_, _, ended, written, flushed, flushes): &Writing) {
    let (answer, flush) = put_and_flush(writer, INPUT);
    let found = (answer, writer.written(), flush, writer.flushes());
    assert_eq!(found, (*ended, *written, *flushed, *flushes));
}

#[test]
fn stops_at_each_failed_write() {
    for writing in &WRITINGS {
        let mut writer = FailingWriter::new(writing.0, writing.1);
        takes(&mut writer, writing);
    }
}

/// How many calls succeed, the result for the five bytes, which of them were written, and which were flushed.
type Piece = (u64, Result<(), StreamFault>, &'static [u8], &'static [u8]);

/// Five writes write the five bytes one by one. They are flushed by the sixth call alone.
static PIECES: [Piece; 7] = [
    (0, Err(StreamFault::Write), b"", b""),
    (1, Err(StreamFault::Write), b"a", b""),
    (2, Err(StreamFault::Write), b"ab", b""),
    (3, Err(StreamFault::Write), b"ab\n", b""),
    (4, Err(StreamFault::Write), b"ab\nc", b""),
    (5, Err(StreamFault::Write), INPUT, b""),
    (6, Ok(()), INPUT, INPUT),
];

/// Asserts that a writer has these results for the five bytes.
fn hands_on(writer: &mut FailingWriter, (calls, ended, written, handed): &Piece) {
    let answer = put_whole(writer, INPUT);
    let found = (answer, writer.written(), writer.handed_on());
    assert_eq!(found, (*ended, *written, *handed), "case {}", *calls);
}

#[test]
fn whole_pieces_are_handed_on() {
    for piece in &PIECES {
        let mut writer = FailingWriter::new(1, Some(piece.0));
        hands_on(&mut writer, piece);
    }
}
