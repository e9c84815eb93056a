//! Buffers in front of readers and writers, which stop, fail and are interrupted.

use crate::random::Random;
use crate::refusing::{Refusal, refusing};
use std::cell::RefCell;
use yovanelum_ttd::shim::alloc::Global;
use yovanelum_ttd::shim::io::{BufReader, BufWriter, Error, ErrorKind, Read, Result, Write};

/// The bytes 0, 1, 2, .. , given in pieces of at most `most` bytes. Every `fails`-th read fails,
/// and takes nothing.
struct Pieces {
    left: std::vec::Vec<u8>,
    most: usize,
    fails: usize,
    reads: usize,
}

impl Pieces {
    fn new(count: usize, most: usize, fails: usize) -> Pieces {
        Pieces {
            left: (0..count).map(|n| n as u8).collect(),
            most,
            fails,
            reads: 0,
        }
    }
}

impl Read for Pieces {
    fn read(&mut self, bytes: &mut [u8]) -> Result<usize> {
        self.reads += 1;
        if self.reads % self.fails == 0 {
            return Err(ErrorKind::ConnectionReset.into());
        }
        let count = bytes.len().min(self.most).min(self.left.len());
        bytes[..count].copy_from_slice(&self.left[..count]);
        self.left.drain(..count);
        Ok(count)
    }
}

#[test]
fn a_buffered_reader_gives_the_same_bytes() {
    let mut random = Random::new(11);
    for most in [1, 7, 8191, 8192, 8193, 50_000] {
        let count = 60_000;
        let mut reader = BufReader::new(Global, Pieces::new(count, most, 5)).unwrap();
        let mut given = std::vec::Vec::new();
        let mut failed = 0;
        loop {
            let mut bytes = std::vec![0; 1 + random.below(20_000)];
            match reader.read(&mut bytes) {
                Ok(0) => break,
                Ok(n) => given.extend_from_slice(&bytes[..n]),
                Err(error) => {
                    assert_eq!(error.kind(), ErrorKind::ConnectionReset);
                    failed += 1;
                }
            }
        }
        assert!(failed > 0, "pieces of {most}");
        assert_eq!(given, Pieces::new(count, 1, 2).left, "pieces of {most}");
    }
}

#[test]
fn a_buffered_reader_reads_only_if_it_has_nothing() {
    let mut reader = BufReader::new(Global, Counted(0)).unwrap();
    let mut byte = [0];
    for _ in 0..8192 {
        assert_eq!(reader.read(&mut byte).unwrap(), 1);
    }
    let mut bytes = std::vec![0; 8192];
    assert_eq!(reader.read(&mut bytes).unwrap(), 8192);
    // One read gave the 8,192 bytes before, and a second one these.
    assert!(bytes.iter().all(|read| *read == 2), "{}", bytes[0]);

    /// Fills what it is given with the number of the read.
    struct Counted(u8);

    impl Read for Counted {
        fn read(&mut self, bytes: &mut [u8]) -> Result<usize> {
            self.0 += 1;
            bytes.fill(self.0);
            Ok(bytes.len())
        }
    }
}

/// A writer that keeps what it is given, in pieces of at most `most` bytes. Every `fails`-th write
/// fails with this error.
struct Kept<'a> {
    kept: &'a RefCell<std::vec::Vec<u8>>,
    most: usize,
    fails: usize,
    with: ErrorKind,
    writes: usize,
}

impl Write for Kept<'_> {
    fn write(&mut self, bytes: &[u8]) -> Result<usize> {
        self.writes += 1;
        if self.writes % self.fails == 0 {
            return Err(self.with.into());
        }
        let count = bytes.len().min(self.most);
        self.kept.borrow_mut().extend_from_slice(&bytes[..count]);
        Ok(count)
    }

    fn flush(&mut self) -> Result<()> {
        Ok(())
    }
}

fn buffered<'a>(
    kept: &'a RefCell<std::vec::Vec<u8>>,
    most: usize,
    fails: usize,
    with: ErrorKind,
) -> BufWriter<Kept<'a>> {
    let inner = Kept {
        kept,
        most,
        fails,
        with,
        writes: 0,
    };
    BufWriter::with_capacity(Global, 100, inner).unwrap()
}

/// Writes random pieces, and returns the bytes that were taken, and how many writes failed.
fn write_some(writer: &mut impl Write, seed: u64) -> (std::vec::Vec<u8>, usize) {
    let mut random = Random::new(seed);
    let (mut taken, mut failed) = (std::vec::Vec::new(), 0);
    for n in 0..2_000 {
        let piece = std::vec![n as u8; random.below(250)];
        match writer.write(&piece) {
            Ok(count) => taken.extend_from_slice(&piece[..count]),
            Err(error) => {
                assert_eq!(error.kind(), ErrorKind::StorageFull);
                failed += 1;
            }
        }
    }
    (taken, failed)
}

#[test]
fn a_buffered_writer_loses_no_byte_by_failures() {
    for most in [1, 30, 1_000] {
        let kept = RefCell::new(std::vec::Vec::new());
        let mut writer = buffered(&kept, most, 7, ErrorKind::StorageFull);
        let (taken, failed) = write_some(&mut writer, 5);
        assert!(failed > 0);
        // A flush may fail too. What it leaves stays in the buffer.
        while writer.flush().is_err() {}
        assert_eq!(*kept.borrow(), taken, "pieces of {most}");
    }
}

#[test]
fn a_buffered_writer_goes_on_after_an_interruption() {
    let kept = RefCell::new(std::vec::Vec::new());
    let mut writer = buffered(&kept, 30, 2, ErrorKind::Interrupted);
    writer.write_all(&[7; 90]).unwrap();
    assert_eq!(kept.borrow().len(), 0);
    writer.flush().unwrap();
    assert_eq!(*kept.borrow(), [7; 90]);
}

#[test]
fn a_buffered_writer_writes_the_rest_when_it_is_dropped() {
    let kept = RefCell::new(std::vec::Vec::new());
    let mut writer = buffered(&kept, 30, usize::MAX, ErrorKind::Other);
    writer.write_all(b"to be written").unwrap();
    assert_eq!(kept.borrow().len(), 0);
    drop(writer);
    assert_eq!(*kept.borrow(), b"to be written");
}

#[test]
fn a_writer_that_takes_nothing_is_a_failure() {
    let kept = RefCell::new(std::vec::Vec::new());
    let mut writer = buffered(&kept, 0, usize::MAX, ErrorKind::Other);
    writer.write_all(b"lost").unwrap();
    assert_eq!(writer.flush().unwrap_err().kind(), ErrorKind::WriteZero);
}

#[test]
fn a_buffer_that_is_refused_is_an_error() {
    let kind = |error: Error| error.kind();
    let made = || BufReader::new(Global, std::io::empty()).map(drop);
    let (result, refused) = refusing(Refusal::only(0), made);
    assert_eq!(
        (result.map_err(kind), refused),
        (Err(ErrorKind::OutOfMemory), 1)
    );
    let made = || BufWriter::with_capacity(Global, 65_536, std::io::sink()).map(drop);
    let (result, refused) = refusing(Refusal::only(0), made);
    assert_eq!(
        (result.map_err(kind), refused),
        (Err(ErrorKind::OutOfMemory), 1)
    );
}

#[test]
fn buffers_ask_for_no_more_memory() {
    let kept = RefCell::new(std::vec::Vec::with_capacity(1_000_000));
    let mut writer = buffered(&kept, 30, usize::MAX, ErrorKind::Other);
    let mut reader = BufReader::new(Global, Pieces::new(60_000, 50, usize::MAX)).unwrap();
    let mut bytes = [0; 300];
    let ((), refused) = refusing(Refusal::above(0), || {
        loop {
            match reader.read(&mut bytes) {
                Ok(0) => break,
                Ok(count) => writer.write_all(&bytes[..count]).unwrap(),
                Err(error) => panic!("{error}"),
            }
        }
        writer.flush().unwrap();
    });
    assert_eq!((kept.borrow().len(), refused), (60_000, 0));
}
