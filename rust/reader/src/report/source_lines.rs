//! Lines of the sources, as rustc shows them: the line with the call, and below it what happened
//! there. Where a source isn't there, or was written since, there is none.

use std::cell::RefCell;
use std::fs;
use std::path::PathBuf;
use std::time::SystemTime;
use yovanelum_record::by_text::TextMap;
use yovanelum_record::listed::IntoList;
use yovanelum_record::sidecar::SourceLocation;

/// How many characters of a line are shown at most. Of a longer one, those around the call are.
const SHOWN_CHARS: usize = 100;

/// How many characters before the call are shown of a longer line.
const SHOWN_BEFORE: usize = 60;

/// Sources that were written before some time, which are read once.
#[derive(Debug)]
pub struct SourceLines {
    root: PathBuf,
    before: SystemTime,
    read: RefCell<TextMap<Option<String>>>,
}

/// A line of a source, and where the call is in it.
#[derive(Debug, PartialEq, Eq)]
pub(super) struct SourceLine {
    /// The number of the line with a bar, and the line.
    pub(super) line: String,
    /// As much room and a bar, up to below the call.
    pub(super) below: String,
    /// As many carets as the method's name has characters.
    pub(super) carets: String,
}

impl SourceLines {
    /// The sources in this folder that weren't written after this.
    pub fn in_folder(root: impl Into<PathBuf>, before: SystemTime) -> SourceLines {
        SourceLines {
            root: root.into(),
            before,
            read: RefCell::default(),
        }
    }

    /// Returns the line of a place, if its source is there.
    pub(super) fn of(&self, location: &SourceLocation) -> Option<SourceLine> {
        let read = || {
            let path = self.root.join(&location.file);
            let written = fs::metadata(&path).and_then(|file| file.modified()).ok()?;
            (written <= self.before).then(|| fs::read_to_string(&path).ok())?
        };
        let mut all = self.read.borrow_mut();
        let text = all.get_or_insert_with(&location.file, read);
        let line = text
            .as_ref()?
            .lines()
            .nth(location.line.checked_sub(1)? as usize)?;
        shown(line, location.line, location.column)
    }
}

/// Returns a line with this number, in which the call is at this column.
fn shown(line: &str, number: u32, column: u32) -> Option<SourceLine> {
    let line: Vec<_> = line
        .chars()
        .map(|c| if c == '\t' { ' ' } else { c })
        .listed();
    let at = column.checked_sub(1)? as usize;
    let is_of_name = |c: &&char| c.is_alphanumeric() || **c == '_';
    let name = line.get(at..)?.iter().take_while(is_of_name).count();
    if name == 0 {
        return None;
    }
    let is_long = line.len() > SHOWN_CHARS;
    let start = if is_long {
        at.saturating_sub(SHOWN_BEFORE)
    } else {
        0
    };
    let end = line.len().min(start + SHOWN_CHARS);
    let (head, tail) = (
        if start > 0 { "…" } else { "" },
        if end < line.len() { "…" } else { "" },
    );
    let middle: String = line[start..end].iter().collect();
    let number = number.to_string();
    let room = " ".repeat(at - start + head.chars().count());
    Some(SourceLine {
        line: format!("{number} | {head}{}{tail}", middle.trim_end()),
        below: format!("{} | {room}", " ".repeat(number.len())),
        carets: "^".repeat(name),
    })
}

#[cfg(test)]
mod tests {
    use super::*;

    fn lines(line: &str, number: u32, column: u32) -> Option<[String; 2]> {
        let shown = shown(line, number, column)?;
        Some([shown.line, shown.below + &shown.carets])
    }

    #[test]
    fn the_carets_are_below_the_name_of_the_method() {
        let line = "    assert_eq!(audit.recv().await, Ok(71));";
        let wanted = [
            "12 |     assert_eq!(audit.recv().await, Ok(71));",
            "   |                      ^^^^",
        ];
        assert_eq!(lines(line, 12, 22), Some(wanted.map(String::from)));
        assert_eq!(
            lines("\té.send(1);", 3, 4),
            Some(["3 |  é.send(1);", "  |    ^^^^"].map(String::from))
        );
    }

    #[test]
    fn where_no_name_is_there_is_no_line() {
        assert_eq!(lines("tx.send(1);", 1, 3), None);
        assert_eq!(lines("tx.send(1);", 1, 40), None);
        assert_eq!(lines("tx.send(1);", 1, 0), None);
    }

    #[test]
    fn a_long_line_is_cut_around_the_call() {
        let line = format!("{}tx.send({});", "a".repeat(100), "b".repeat(100));
        let wanted = [
            format!("7 | …{}tx.send({}…", "a".repeat(57), "b".repeat(35)),
            format!("  | {}^^^^", " ".repeat(61)),
        ];
        assert_eq!(lines(&line, 7, 104), Some(wanted));
    }
}
