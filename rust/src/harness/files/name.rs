//! Names of files for names of tests.

use crate::channels::cut::start_of;
use crate::harness::automatic::PASSED;
use crate::harness::replaying::REPLAYED;
use std::fmt::Write;
use yovanelum_record::sidecar::checksum;

/// How many bytes a name has at most. Systems take 143 at least, and endings follow.
const MOST_BYTES: usize = 100;

/// Returns the name as one of a file or a folder. Two names never have the same: what can't be in
/// the name of a file, and each `%`, is written as `%` and its bytes in hexadecimal. A long one is
/// cut, and its end is a checksum of the whole.
pub(in crate::harness) fn file_name(name: &str) -> String {
    let mut out = String::new();
    for (at, c) in name.char_indices() {
        // A point at the beginning hides a file, and one before these words would make it the file
        // of a replay, or of a run that passed.
        let is_ending = [REPLAYED, PASSED].contains(&&name[at..]);
        let is_special_point = c == '.' && (at == 0 || is_ending);
        if is_plain(c) && !is_special_point {
            out.push(c)
        } else {
            push_escaped(&mut out, c)
        }
    }
    match out.len() {
        0 => "%".to_string(),
        1..=MOST_BYTES => out,
        // No byte is written as `%-`.
        _ => {
            let start = start_of(&out, MOST_BYTES - 18);
            format!("{start}%-{:016x}", checksum(name.as_bytes()))
        }
    }
}

/// Appends the bytes of a character in hexadecimal.
fn push_escaped(out: &mut String, c: char) {
    for byte in c.encode_utf8(&mut [0; 4]).bytes() {
        let _ = write!(out, "%{byte:02X}");
    }
}

/// Whether a character stands for itself. A blank does, within a name.
fn is_plain(c: char) -> bool {
    c.is_alphanumeric() || matches!(c, '_' | '-' | '.' | ' ' | ',' | '+' | '=')
}

#[cfg(test)]
mod tests {
    use super::*;
    use std::collections::BTreeSet;

    #[test]
    fn what_cannot_be_in_the_name_of_a_file_is_escaped() {
        for (name, file) in [
            ("no_price_is_missing", "no_price_is_missing"),
            ("it ends, 2 of 3", "it ends, 2 of 3"),
            ("a/b", "a%2Fb"),
            ("a_b", "a_b"),
            ("a%2Fb", "a%252Fb"),
            ("tests::it_ends", "tests%3A%3Ait_ends"),
            ("..", "%2E."),
            ("v1.2", "v1.2"),
            ("a.replayed", "a%2Ereplayed"),
            ("a.replayed.b", "a.replayed.b"),
            ("prix élevé", "prix élevé"),
            ("🦀", "%F0%9F%A6%80"),
            ("", "%"),
            ("a\0\n\\", "a%00%0A%5C"),
        ] {
            assert_eq!(file_name(name), file);
        }
    }

    #[test]
    fn a_long_name_is_cut_and_stays_its_own() {
        let long = |end: &str| file_name(&format!("{}{end}", "é/".repeat(150)));
        let files: BTreeSet<_> = ["", "a", "b", "aa"].map(long).into();
        assert_eq!(files.len(), 4);
        for file in &files {
            assert!(
                file.len() <= MOST_BYTES && file.starts_with("é%2Fé%2F"),
                "{file}"
            );
        }
        let fits = "a".repeat(MOST_BYTES);
        assert_eq!(file_name(&fits), fits);
    }
}
