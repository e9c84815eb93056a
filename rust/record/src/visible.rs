//! Texts of a program's own, as a line of the account has them: on one line, and not too long.

use crate::listed::IntoList;
use crate::sidecar::SourceLocation;
use std::fmt::Write;

/// How many characters of a text are shown.
const SHOWN_CHARS: usize = 40;

/// How many characters of a message are shown.
const LINE_CHARS: usize = 160;

/// How many values of a list are shown in full.
const SHOWN_VALUES: usize = 5;

/// Returns the first characters of a text, and whether it has more.
fn start(text: &str) -> (&str, &'static str) {
    match text.char_indices().nth(SHOWN_CHARS) {
        Some((end, _)) => (&text[..end], "…"),
        None => (text, ""),
    }
}

/// Returns a name on one line. What can't be seen in it is escaped.
pub fn name(text: &str) -> String {
    let (start, more) = start(text);
    path(start) + more
}

/// Returns the whole of a text on one line, as that of a path. What can't be seen in it is escaped.
pub fn path(text: &str) -> String {
    let mut path = String::new();
    for c in text.chars() {
        match c {
            '"' | '\'' | '\\' => path.push(c),
            c => path.extend(c.escape_debug()),
        }
    }
    path
}

/// Returns a location as a file and a line, as `tests/bus.rs:15`.
pub fn line_of(location: &SourceLocation) -> String {
    format!("{}:{}", path(&location.file), location.line)
}

/// Returns a text in quotation marks, on one line.
pub fn quoted(text: &str) -> String {
    let (start, more) = start(text);
    let mut quoted = String::new();
    let _ = write!(quoted, "{start:?}{more}");
    quoted
}

/// Returns what a call is called by its number in the run, as `call 3`.
pub fn call(number: u64) -> String {
    format!("call {number}")
}

/// Returns a number of microseconds in one unit, rounded down: `950 us`, `12 ms` or `3 s`.
pub fn duration(microseconds: u64) -> String {
    match microseconds {
        0..1_000 => format!("{microseconds} us"),
        1_000..10_000_000 => format!("{} ms", microseconds / 1_000),
        _ => format!("{} s", microseconds / 1_000_000),
    }
}

/// Returns a small number as a word.
pub fn number(number: u64) -> String {
    const WORDS: [&str; 13] = [
        "no", "one", "two", "three", "four", "five", "six", "seven", "eight", "nine", "ten",
        "eleven", "twelve",
    ];
    let word = usize::try_from(number).ok().and_then(|at| WORDS.get(at));
    word.map_or_else(|| number.to_string(), |word| word.to_string())
}

/// Returns a number of values as words.
pub fn values(count: u64) -> String {
    let end = if count == 1 { "" } else { "s" };
    format!("{} value{end}", number(count))
}

/// Returns a number of sends as words.
pub fn sends(count: u64) -> String {
    match count {
        1 => "a send".to_string(),
        count => format!("{} sends", number(count)),
    }
}

/// Returns a number of receivers as words.
pub fn receivers(count: u64) -> String {
    let end = if count == 1 { "" } else { "s" };
    format!("{} receiver{end}", number(count))
}

/// Returns which of several things one is, as `1st` or `22nd`.
pub fn nth(number: u64) -> String {
    let end = match (number % 10, number % 100) {
        (_, 11..=13) => "th",
        (1, _) => "st",
        (2, _) => "nd",
        (3, _) => "rd",
        _ => "th",
    };
    format!("{number}{end}")
}

/// Whether a text has a word. The search of the standard library would be a good part of the page's
/// engine.
pub fn has(text: &str, word: &str) -> bool {
    let mut parts = text.as_bytes().windows(word.len());
    parts.any(|part| part == word.as_bytes())
}

/// Returns a text of several lines on one, with a comma between them. A long one is cut.
pub fn line(text: &str) -> String {
    let mut line = String::new();
    for part in text.split('\n').map(str::trim_ascii) {
        if !part.is_empty() {
            line.push_str(if line.is_empty() { "" } else { ", " });
            line.push_str(part);
        }
    }
    let line = path(&line);
    match line.char_indices().nth(LINE_CHARS) {
        Some((end, _)) => format!("{}…", &line[..end]),
        None => line,
    }
}

/// Returns a number of things, as `1 call` or `2 calls`.
pub fn counted(count: u64, thing: &str) -> String {
    match count {
        1 => format!("1 {thing}"),
        _ => format!("{count} {thing}s"),
    }
}

/// Returns a list of texts on one line. Of a long list it has the first three and the last.
pub fn list<T>(items: &[T], text: impl Fn(&T) -> String) -> String {
    let texts = |items: &[T]| items.iter().map(&text).listed().join(", ");
    match items {
        [.., last] if items.len() > SHOWN_VALUES => {
            format!("{}, .. {}", texts(&items[..3]), text(last))
        }
        items => texts(items),
    }
}

/// Returns the first texts of a list, and how many more there are.
pub fn first(items: &[String], most: usize, separator: &str) -> String {
    let shown = items.len().min(most);
    let mut text = items[..shown].join(separator);
    if items.len() > shown {
        let _ = write!(text, "{separator}and {} more", items.len() - shown);
    }
    text
}

#[cfg(test)]
mod tests {
    use super::*;

    #[test]
    fn a_text_is_on_one_line_and_not_too_long() {
        assert_eq!(quoted("a \"b\"\n\u{202e}"), r#""a \"b\"\n\u{202e}""#);
        assert_eq!(name("a \"b\"\n\u{202e}"), r#"a "b"\n\u{202e}"#);
        let long = "é".repeat(41);
        assert_eq!(quoted(&long), format!("\"{}\"…", "é".repeat(40)));
        assert_eq!(name(&long), "é".repeat(40) + "…");
        assert_eq!(name(&long[..80]), "é".repeat(40));
        assert_eq!(path(&long), long);
    }

    #[test]
    fn a_long_list_has_its_first_texts_and_its_last() {
        let text = |n: &u32| n.to_string();
        assert_eq!(list(&[1, 2, 3, 4, 5], text), "1, 2, 3, 4, 5");
        assert_eq!(list(&[1, 2, 3, 4, 5, 6], text), "1, 2, 3, .. 6");
        assert_eq!(list(&[], text), "");
        let names = ["a", "b", "c"].map(String::from);
        assert_eq!(first(&names, 3, ", "), "a, b, c");
        assert_eq!(first(&names, 2, "; "), "a; b; and 1 more");
    }

    #[test]
    fn one_thing_has_no_s() {
        assert_eq!(
            (counted(1, "call"), counted(0, "call")),
            ("1 call".into(), "0 calls".into())
        );
    }
}
