//! `itoa`, `memchr` and casts.

use crate::random::Random;
use crate::shim::itoa::Buffer;
use crate::shim::memchr::memchr;
use crate::shim::saturated;

/// Checks the digits of a number beside those that Rust writes.
fn check(buffer: &mut Buffer, n: u64) {
    assert_eq!(buffer.format(n).as_bytes(), n.to_string().as_bytes());
}

#[test]
fn digits_are_those_that_rust_writes() {
    let mut buffer = Buffer::new();
    for n in 0..20_000 {
        check(&mut buffer, n);
    }
    for power in 1..20 {
        let n = 10u64.pow(power);
        for n in [n - 1, n, n + 1] {
            check(&mut buffer, n);
        }
    }
    for bits in 0..64 {
        let n = 1u64 << bits;
        for n in [n - 1, n, n + 1] {
            check(&mut buffer, n);
        }
    }
    check(&mut buffer, u64::MAX);
    let mut random = Random::new(2);
    for _ in 0..20_000 {
        let n = (random.below(1 << 31) as u64) << 32 | random.below(1 << 31) as u64;
        check(&mut buffer, n >> random.below(63));
    }
}

#[test]
fn narrower_numbers_have_digits_too() {
    let mut buffer = Buffer::new();
    assert_eq!(buffer.format(u8::MAX).as_bytes(), b"255");
    assert_eq!(buffer.format(u16::MAX).as_bytes(), b"65535");
    assert_eq!(buffer.format(u32::MAX).as_bytes(), b"4294967295");
}

/// The first index of a byte, by a loop.
fn first(byte: u8, bytes: &[u8]) -> Option<usize> {
    for (index, at) in bytes.iter().enumerate() {
        if *at == byte {
            return Some(index);
        }
    }
    None
}

#[test]
fn the_first_index_of_a_byte_is_found() {
    // All lengths up to 80, all places of the byte, and all alignments.
    let bytes = [b'x'; 100];
    for start in 0..9 {
        for length in 0..80 {
            let mut bytes = bytes;
            assert_eq!(memchr(b'\n', &bytes[start..start + length]), None);
            bytes[start + length] = b'\n';
            assert_eq!(memchr(b'\n', &bytes[start..start + length]), None);
            for at in (0..length).rev() {
                bytes[start + at] = b'\n';
                assert_eq!(memchr(b'\n', &bytes[start..start + length]), Some(at));
            }
        }
    }
}

#[test]
fn bytes_that_differ_in_one_bit_are_told_apart() {
    for byte in 0..=u8::MAX {
        let others: Vec<u8> = (0..=u8::MAX).filter(|other| *other != byte).collect();
        assert_eq!(memchr(byte, &others), None);
    }
    let mut random = Random::new(3);
    for _ in 0..20_000 {
        let kinds = 1 + random.below(256);
        let bytes: Vec<u8> = (0..random.below(40))
            .map(|_| random.below(kinds) as u8)
            .collect();
        let byte = random.below(kinds) as u8;
        assert_eq!(memchr(byte, &bytes), first(byte, &bytes));
    }
}

#[test]
fn a_number_that_is_no_index_is_past_every_list() {
    for n in [0, 1, 65_535, u64::from(u32::MAX)] {
        assert_eq!(saturated(n) as u64, n);
    }
    // The index of the first item, if its upper bits were lost.
    let past = saturated(1 << 32);
    assert!(past as u64 == 1 << 32 || past == usize::MAX);
    assert_eq!([7].get(past), None);
    assert_eq!([7].get(saturated(u64::MAX)), None);
}
