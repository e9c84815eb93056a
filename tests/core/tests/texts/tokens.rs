//! Numerals, and the tokens of lines.

use proved::Global;
use proved::rw_lines::{cut, is_name, is_skipped, is_word, numeral, push_number};

/// Tokens, and the numbers whose numerals they are.
static NUMERALS: [(&[u8], Option<u64>); 10] = [
    (b"0", Some(0)),
    (b"7", Some(7)),
    (b"4294967296", Some(4_294_967_296)),
    (b"18446744073709551615", Some(u64::MAX)),
    (b"18446744073709551616", None),
    (b"99999999999999999999", None),
    (b"07", None),
    (b"", None),
    (b"+7", None),
    (b"7\r", None),
];

/// The numeral of a number.
fn numeral_of(n: u64) -> proved::Vec<u8> {
    let mut out = proved::Vec::new(Global);
    push_number(&mut out, n).unwrap();
    out
}

/// Asserts that a number is written as this token.
fn is_written(n: u64, token: &[u8]) {
    let text = numeral_of(n);
    assert_eq!(text.as_slice(), token, "case {n}");
}

#[test]
fn reads_numerals_and_writes_them() {
    for (token, want) in &NUMERALS {
        let found = numeral(token);
        assert_eq!(found, *want);
        if let Some(n) = found {
            is_written(n, token);
        }
    }
}

/// Tokens, and whether each is a word and a name.
static TOKENS: [(&[u8], bool, bool); 12] = [
    (b"", false, false),
    (b"-", true, false),
    (b"try-recv", true, false),
    (b"as", true, false),
    (b"ass", true, true),
    (b"r", true, true),
    (b"r2", false, true),
    (b"2r", false, false),
    (b"R", false, false),
    (b"r\r", false, false),
    (b"a234567890123456", false, true),
    (b"a2345678901234567", false, false),
];

/// Lines, and whether each is skipped.
static LINES: [(&[u8], bool); 4] = [(b"", true), (b"#", true), (b" #", false), (b"\r", false)];

/// A text that is cut at a space, and its two parts.
type Cut = (&'static [u8], Option<(&'static [u8], &'static [u8])>);

static CUTS: [Cut; 3] = [
    (b"0 send 1", Some((b"0", b"send 1"))),
    (b" 0", Some((b"", b"0"))),
    (b"0", None),
];

/// Asserts that each token is a word or a name as is told.
fn tell_tokens() {
    for told in &TOKENS {
        let token = told.0;
        assert_eq!((token, is_word(token), is_name(token)), *told);
    }
}

/// Asserts that each line is skipped as is told.
fn tell_lines() {
    for told in &LINES {
        assert_eq!((told.0, is_skipped(told.0)), *told);
    }
}

/// Asserts that each text is cut as is told.
fn tell_cuts() {
    for (text, parts) in &CUTS {
        assert_eq!(cut(text, b' '), *parts);
    }
}

#[test]
fn tells_tokens_apart() {
    tell_tokens();
    tell_lines();
    tell_cuts();
}
