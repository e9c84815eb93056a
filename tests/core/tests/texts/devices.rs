//! The reader and the writer that other tests are given: they fail at the call that they are set to fail at, and say what is left.

use std::io::{Read, Write};
use support::devices::{FailingReader, FailingWriter};

#[test]
fn a_reader_fails_once_and_reads_on() {
    let mut reader = FailingReader::new(b"abcdef", 2, Some(1));
    let mut bytes = [0; 4];
    assert_eq!(reader.unread(), b"abcdef");
    assert_eq!(reader.read(&mut bytes).unwrap(), 2);
    assert_eq!((&bytes[..2], reader.unread()), (&b"ab"[..], &b"cdef"[..]));
    assert!(reader.read(&mut bytes).is_err());
    assert_eq!(reader.unread(), b"cdef");
    let mut rest = Vec::new();
    assert_eq!(reader.read_to_end(&mut rest).unwrap(), 4);
    assert_eq!(rest, b"cdef");
}

#[test]
fn a_writer_fails_once_and_hands_on_at_a_flush() {
    let mut writer = FailingWriter::new(3, Some(2));
    assert_eq!(writer.flushes(), 0);
    assert_eq!(writer.write(b"abcd").unwrap(), 3);
    assert_eq!(
        (writer.written(), writer.handed_on()),
        (&b"abc"[..], &b""[..])
    );
    writer.flush().unwrap();
    assert_eq!((writer.handed_on(), writer.flushes()), (&b"abc"[..], 1));
    assert!(writer.write(b"d").is_err());
    assert_eq!(writer.written(), b"abc");
    assert_eq!(writer.write(b"d").unwrap(), 1);
    assert_eq!(
        (writer.written(), writer.handed_on()),
        (&b"abcd"[..], &b"abc"[..])
    );
}
