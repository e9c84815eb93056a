//! Lines of a report, broken where the terminal ends.

/// By how much more than its line a further one is indented.
const INDENT: usize = 4;

/// Returns a text in which no line is wider than this, where it can be broken at a space. A further
/// line is indented.
///
/// What is read by a program or copied stays on one line: a place in the sources, an address, and a
/// line of a source with what is below it.
pub fn wrapped(text: &str, width: usize) -> String {
    let mut out = String::new();
    for line in text.lines() {
        if columns_of(line) <= width || is_whole(&plain(line)) {
            out += line;
        } else {
            push_broken(&mut out, line, width);
        }
        out.push('\n');
    }
    out
}

/// Whether a line, which has no colours, is never broken.
fn is_whole(line: &str) -> bool {
    let gutter = line.trim_start_matches(|c: char| c.is_ascii_digit() || c == ' ');
    let begins = ["::", "  --> ", "look: ", "replay: "];
    gutter.starts_with('|') || begins.iter().any(|begin| line.starts_with(begin))
}

fn push_broken(out: &mut String, line: &str, width: usize) {
    let indent = line.len() - line.trim_start_matches(' ').len();
    let further = " ".repeat((indent + INDENT).min(width / 2));
    let mut used = 0;
    // Each word is with the spaces before it, which a break takes the place of.
    for word in words(line) {
        let columns = columns_of(word);
        if used + columns > width && used > 0 {
            out.push('\n');
            *out += &further;
            let word = word.trim_start_matches(' ');
            *out += word;
            used = further.len() + columns_of(word);
        } else {
            *out += word;
            used += columns;
        }
    }
}

/// Returns the words of a line, each with the spaces before it.
fn words(line: &str) -> impl Iterator<Item = &str> {
    let mut rest = line;
    std::iter::from_fn(move || {
        if rest.is_empty() {
            return None;
        }
        let start = rest.len() - rest.trim_start_matches(' ').len();
        let end = rest[start..].find(' ').map_or(rest.len(), |it| start + it);
        let (word, behind) = rest.split_at(end);
        rest = behind;
        Some(word)
    })
}

/// Returns how many columns of a terminal a text takes. A colour takes none.
pub(super) fn columns_of(text: &str) -> usize {
    plain(text).chars().map(columns_of_char).sum()
}

/// Returns a text without its colours.
fn plain(text: &str) -> String {
    let mut out = String::new();
    let mut parts = text.split("\x1b[");
    out.extend(parts.next());
    for part in parts {
        out += part.split_once('m').map_or(part, |(_, rest)| rest);
    }
    out
}

/// By the ranges of Unicode's East Asian Width that have more than a few characters, and of marks
/// that stand on the character before them.
fn columns_of_char(c: char) -> usize {
    match u32::from(c) {
        0x300..=0x36f | 0x200b..=0x200f | 0x20d0..=0x20ff | 0xfe00..=0xfe0f => 0,
        0x1100..=0x115f | 0x2e80..=0xa4cf | 0xac00..=0xd7a3 | 0xf900..=0xfaff => 2,
        0xfe30..=0xfe6f | 0xff00..=0xff60 | 0xffe0..=0xffe6 => 2,
        0x1f300..=0x1f64f | 0x1f680..=0x1f6ff | 0x1f900..=0x1f9ff | 0x20000..=0x3fffd => 2,
        _ => 1,
    }
}

#[cfg(test)]
mod tests {
    use super::*;

    #[test]
    fn a_line_is_broken_at_a_space_and_goes_on_indented() {
        let text = "  call 3   orders.send(7)   src/bus.rs:4   overwrote 5\nshort\n";
        let wanted = "  call 3   orders.send(7)\n      src/bus.rs:4   overwrote\n      5\nshort\n";
        assert_eq!(wrapped(text, 30), wanted);
        assert_eq!(wrapped(text, 80), text);
        // A word that is wider than the terminal is the terminal's to break.
        assert_eq!(wrapped("a 123456789 b\n", 6), "a\n   123456789\n   b\n");
    }

    #[test]
    fn a_colour_and_a_mark_take_no_column_and_a_wide_character_two() {
        for (text, columns) in [
            ("\x1b[1m\x1b[31merror:\x1b[0m", 6),
            ("e\u{301}", 1),
            ("価格", 4),
            ("▁█▒", 3),
        ] {
            assert_eq!(columns_of(text), columns, "{text}");
        }
    }

    #[test]
    fn what_is_copied_or_read_by_a_program_stays_whole() {
        for line in [
            "  --> tests/a long name/orders.rs:9:22",
            "\x1b[36mlook:\x1b[0m file:///a/b c/d.html#call=3",
            "9 |     assert_eq!(audit.recv().await, Ok(71));",
            "  |                      ^^^^ told here: lagged 1",
            "::error file=a b,line=9::a text",
        ] {
            assert_eq!(wrapped(&format!("{line}\n"), 12), format!("{line}\n"));
        }
    }
}
