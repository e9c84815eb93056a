//! The functions that name a limit in their bodies, each with its row.

use super::ROWS;
use std::collections::BTreeSet;
use std::fs;
use std::path::Path;

/// Where a function is, its name, and its row; or after `none:` why it has none.
#[rustfmt::skip]
const COVERED: &[(&str, &str, &str)] = &[
    ("rw_broadcast/src/machine.rt", "open", "open_channel, capacity"),
    ("rw_broadcast/src/machine/reversible.rt", "apply", "Broadcast, handles"),
    ("rw_broadcast/src/machine/reversible.rt", "ready", "Broadcast, handles"),
    ("rw_console/src/command.rt", "command_of", "none: a command of more bytes than a line may have is a bad one, as are all of that length"),
    ("rw_console/src/debugging.rt", "debug_again", "debug, bytes"),
    ("rw_console/src/sessions.rt", "session", "session, bytes"),
    ("rw_desk/src/desk.rt", "refusal_to_open", "Desk::open, actors"),
    ("rw_desk/src/straying.rt", "follow_all", "Desk::open, actors"),
    ("rw_desk/src/straying.rt", "strayed", "Desk::open, actors"),
    ("rw_journal/src/noted.rt", "limit", "none: what stands for a machine in a proof has no limit of its own"),
    ("rw_journal/src/out_of_order.rt", "first_clash", "merge_all, refusal_to_merge, channels"),
    ("rw_journal/src/pending.rt", "open", "merge_all, refusal_to_merge, channels"),
    ("rw_journal/src/recent_calls.rt", "due_stamp", "RecentCalls::take, stamps"),
    ("rw_journal/src/recent_calls.rt", "note", "RecentCalls::open, a chunk"),
    ("rw_journal/src/row_draft.rt", "is_beyond", "RunDraft::push"),
    ("rw_journal/src/stamps.rt", "stamp_after", "Book::take, stamps"),
    ("rw_lines/src/lines.rt", "next_short_line", "session, a line"),
    ("rw_navigator/src/worlds/indexes.rt", "keep", "debug, indexes"),
    ("rw_program/src/inputs.rt", "read_whole", "read_whole"),
    ("rw_recording/src/channels.rt", "make", "none: no channel gets as heavy in a lifetime"),
    ("rw_recording/src/cut.rt", "add", "Cut::add"),
    ("rw_recording/src/flight.rt", "renumber", "none: no channel gets as heavy in a lifetime"),
    ("rw_recording/src/lead.rt", "has_room", "Kept::lead, handles of the window"),
    ("rw_recording/src/lead.rt", "lead", "Kept::lead, handles"),
    ("rw_recording/src/past.rt", "are_few", "none: a window of more calls than a journal has is of the later ones alone"),
    ("rw_recording/src/past.rt", "has_numbers", "none: no chunk has as many new handles where its dropped ones are taken out"),
    ("rw_recording/src/past.rt", "is_below", "none: as has_numbers"),
    ("rw_recording/src/recording.rt", "more_room", "none: no channel gets as heavy in a lifetime"),
    ("rw_script/src/reader.rt", "add_head", "Script::read, actors"),
    ("rw_script/src/reader.rt", "add_spec", "Script::read, channels"),
    ("rw_script/src/reader.rt", "add_step", "Script::read, run_one"),
    ("rw_script/src/reader.rt", "read_counted_line", "Script::read, a line"),
    ("rw_text/src/channels.rt", "capacity_of", "read, a capacity"),
    ("rw_text/src/reader.rt", "leave", "read, a line"),
    ("rw_text/src/reader.rt", "read_channel", "read, channels"),
    ("rw_text/src/reader.rt", "read_line", "read, a line"),
    ("rw_watch/src/machine/reversible.rt", "apply", "Watch, handles"),
    ("rw_watch/src/machine/reversible.rt", "ready", "Watch, handles"),
    ("rw_world/src/members.rt", "least_limit", "none: a row with no channel has no limit of its own"),
    ("rw_world/src/opening.rt", "has_bad_capacity", "open_channel, capacity"),
    ("rw_world/src/opening.rt", "refusal_of", "open, channels"),
];

/// The limits: constants of these names.
fn is_limit(word: &str) -> bool {
    word.starts_with("MOST_") || word == "LONGEST_LINE"
}

/// Whether a line of a body names a limit.
fn names_limit(line: &str) -> bool {
    let code = line.split("//").next().unwrap_or_default();
    code.split(|c: char| !c.is_ascii_alphanumeric() && c != '_')
        .any(is_limit)
}

/// The name of the function that begins in this line, if one does.
fn begun(line: &str) -> Option<&str> {
    let words = line.trim_start();
    let (before, rest) = words.split_once("fn ")?;
    let is_head = before.split_whitespace().all(|word| {
        word.starts_with("pub") || ["const", "extern", "unsafe", "\"C\""].contains(&word)
    });
    let end = rest.find(['(', '<'])?;
    is_head.then_some(&rest[..end])
}

/// Adds the functions of a source whose bodies name a limit. A body begins after a line `{`, or one that ends with ` {`, and what is
/// before is the contract.
fn add(path: &str, text: &str, found: &mut BTreeSet<(String, String)>) {
    let (mut name, mut is_body) = (None, false);
    for line in text.lines() {
        if line == "}" {
            name = None;
        } else if let Some(function) = begun(line) {
            (name, is_body) = (Some(function), line.ends_with(" {"));
        } else if line.trim() == "{" {
            is_body = true;
        } else if let (true, Some(function)) = (is_body && names_limit(line), name) {
            found.insert((path.to_string(), function.to_string()));
        }
    }
}

/// Looks through a folder of sources.
fn look(top: &Path, folder: &Path, found: &mut BTreeSet<(String, String)>) {
    for entry in fs::read_dir(folder).unwrap() {
        let path = entry.unwrap().path();
        if path.is_dir() {
            look(top, &path, found);
        } else if path.extension().is_some_and(|end| end == "rt") {
            let name = path.strip_prefix(top).unwrap().to_str().unwrap();
            add(name, &fs::read_to_string(&path).unwrap(), found);
        }
    }
}

#[test]
fn each_function_with_a_limit_has_a_row() {
    let top = Path::new(env!("CARGO_MANIFEST_DIR")).join("../../../crates");
    let mut found = BTreeSet::new();
    for entry in fs::read_dir(&top).unwrap() {
        let sources = entry.unwrap().path().join("src");
        if sources.is_dir() {
            look(&top, &sources, &mut found);
        }
    }
    for (path, name, row) in COVERED {
        let is_known = row.starts_with("none: ") || ROWS.contains(row);
        assert!(is_known, "{path} {name}: there is no row {row}");
        let is_found = found.remove(&(path.to_string(), name.to_string()));
        assert!(is_found, "{path} {name} names no limit, or is there twice");
    }
    assert!(found.is_empty(), "no row is named for {found:?}");
}
