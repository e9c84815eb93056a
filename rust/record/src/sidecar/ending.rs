//! What the names say of the test itself: which test it was, how it ended, what wasn't recorded,
//! and of which sources and journal they are.

use super::json::Json;
use super::reading::{list, members, number, object, optional, optional_text, text_of};
use super::{push_flag, push_items, push_number, push_optional, push_some, push_string};
use crate::by_text::TextMap;
use std::fmt::Write;

/// The test that made a run.
#[derive(Clone, Debug, Default, PartialEq, Eq)]
pub struct TestId {
    pub package: String,
    /// The build target: the name of a file in `tests/`, or that of the library, a program or an
    /// example.
    pub target: String,
    /// The name that its recorder was given.
    pub name: String,
    /// The name of the thread that made its recorder, which is the name that cargo knows the test
    /// by.
    pub thread: String,
    /// How many recorders with this name that thread had made before.
    pub nth: u64,
    /// Whether a package stood for tokio in its build.
    pub patched: bool,
}

/// A panic of a thread or task that the recorder follows.
#[derive(Clone, Debug, PartialEq, Eq)]
pub struct Panic {
    pub text: String,
    /// An index into the locations.
    pub location: Option<usize>,
    /// The actor that panicked, if it had made a recorded call.
    pub actor: Option<u64>,
    /// The name of the named future or the thread that panicked, if it has one.
    pub who: Option<String>,
    /// The number that the runtime gave the task that panicked, if that is known.
    pub task: Option<u64>,
    /// The entries with stamps up to this were recorded before it began.
    pub since: u64,
}

/// That the test returned an `Err`.
#[derive(Clone, Debug, PartialEq, Eq)]
pub struct Returned {
    /// What its `Debug` prints.
    pub text: String,
    /// Where it was passed on, as an index into the locations.
    pub location: Option<usize>,
    /// The entries with stamps up to this were recorded before.
    pub since: u64,
}

/// What was called and isn't in the journal.
#[derive(Clone, Copy, Debug, Default, PartialEq, Eq)]
pub struct Unrecorded {
    /// How many channels were created and left out, since the run had as many as a run can have.
    pub channels: u64,
    /// How many channels left the run for later ones.
    pub left: u64,
    /// Whether recording ended before the test did, since a channel had made as many calls as a
    /// journal takes.
    pub calls: bool,
    /// How many channels made more handles than a journal names, so that their recording ended
    /// then.
    pub handles: u64,
    /// How many channels were left out, since the thread that ended the process had locked them.
    pub locked: u64,
}

impl Unrecorded {
    /// Whether all was recorded.
    pub fn is_nothing(&self) -> bool {
        *self == Unrecorded::default()
    }
}

/// What is known of the test, and of the files that the names belong to.
#[derive(Clone, Debug, Default, PartialEq, Eq)]
pub struct Ending {
    pub test: Option<TestId>,
    /// The panics in the order in which they began.
    pub panics: Vec<Panic>,
    /// The index of the panic that unwound the recorder of the test.
    pub ended_by: Option<usize>,
    /// Whether it was written of a test that had not ended in time.
    pub hangs: bool,
    pub returned: Option<Returned>,
    pub unrecorded: Unrecorded,
    /// The folder that the paths of sources are relative to.
    pub root: Option<String>,
    /// The checksum of each source file, by its path as the locations have it.
    pub sources: TextMap<u64>,
    /// The checksum of the journal's text.
    pub journal: Option<u64>,
}

/// Returns the checksum that the names have of a file: the 64-bit FNV-1a hash of its bytes.
pub fn checksum(bytes: &[u8]) -> u64 {
    let add = |hash: u64, byte: u64| (hash ^ byte).wrapping_mul(0x0100_0000_01b3);
    let mut hash = 0xcbf2_9ce4_8422_2325;
    // Eight bytes at a time: a test builds this without optimization, and a journal may have some
    // 30 million bytes.
    let words = bytes.chunks_exact(8);
    let rest = words.remainder();
    for word in words {
        let word: [u8; 8] = word.try_into().expect("eight bytes");
        let word = u64::from_le_bytes(word);
        let mut shift = 0;
        while shift < 64 {
            hash = add(hash, word >> shift & 0xff);
            shift += 8;
        }
    }
    rest.iter()
        .fold(hash, |hash, byte| add(hash, (*byte).into()))
}

impl Ending {
    /// Appends the members of the document that aren't empty.
    pub(super) fn push(&self, out: &mut String) {
        push_some(out, "test", self.test.as_ref(), push_test);
        push_items(out, "panics", &self.panics, push_panic);
        push_some(out, "ended_by", self.ended_by.as_ref(), push_number);
        push_flag(out, "hangs", self.hangs);
        push_some(out, "returned", self.returned.as_ref(), push_returned);
        let unrecorded = Some(&self.unrecorded).filter(|it| !it.is_nothing());
        push_some(out, "unrecorded", unrecorded, push_unrecorded);
        push_some(out, "root", self.root.as_ref(), push_string);
        let sources = Some(&self.sources).filter(|it| !it.is_empty());
        push_some(out, "sources", sources, push_sources);
        push_some(out, "journal", self.journal.as_ref(), |out, journal| {
            push_checksum(out, *journal)
        });
    }

    /// Reads a member of the document, if it is one of these. Returns `false` if it is another.
    pub(super) fn read(&mut self, key: &str, value: &Json) -> Result<bool, String> {
        let value = value.clone();
        match key {
            "test" => self.test = Some(test(value)?),
            "panics" => self.panics = list(value, panic)?,
            "ended_by" => self.ended_by = optional(value)?,
            "hangs" => self.hangs = value == Json::Bool(true),
            "returned" => self.returned = Some(returned(value)?),
            "unrecorded" => self.unrecorded = unrecorded(value)?,
            "root" => self.root = optional_text(value)?,
            "sources" => self.sources = sources(value)?,
            "journal" => self.journal = Some(read_checksum(value)?),
            _ => return Ok(false),
        }
        Ok(true)
    }
}

fn push_test(out: &mut String, test: &TestId) {
    let members = [
        ("package", &test.package),
        ("target", &test.target),
        ("name", &test.name),
        ("thread", &test.thread),
    ];
    out.push('{');
    for (index, (key, text)) in members.into_iter().enumerate() {
        let comma = if index > 0 { ", " } else { "" };
        let _ = write!(out, "{comma}\"{key}\": ");
        push_string(out, text);
    }
    if test.nth > 0 {
        let _ = write!(out, ", \"nth\": {}", test.nth);
    }
    out.push_str(if test.patched {
        ", \"patched\": true}"
    } else {
        "}"
    });
}

fn push_panic(out: &mut String, panic: &Panic) {
    out.push_str("{\"text\": ");
    push_string(out, &panic.text);
    out.push_str(", \"location\": ");
    push_optional(out, &panic.location);
    out.push_str(", \"actor\": ");
    push_optional(out, &panic.actor);
    if let Some(who) = &panic.who {
        out.push_str(", \"who\": ");
        push_string(out, who);
    }
    if let Some(task) = panic.task {
        let _ = write!(out, ", \"task\": {task}");
    }
    let _ = write!(out, ", \"since\": {}}}", panic.since);
}

fn push_returned(out: &mut String, returned: &Returned) {
    out.push('{');
    if !returned.text.is_empty() {
        out.push_str("\"text\": ");
        push_string(out, &returned.text);
        out.push_str(", ");
    }
    out.push_str("\"location\": ");
    push_optional(out, &returned.location);
    let _ = write!(out, ", \"since\": {}}}", returned.since);
}

fn push_unrecorded(out: &mut String, unrecorded: &Unrecorded) {
    let Unrecorded {
        channels,
        left,
        calls,
        handles,
        locked,
    } = unrecorded;
    let _ = write!(
        out,
        "{{\"channels\": {channels}, \"left\": {left}, \"calls\": {calls}, \"handles\": {handles}, \"locked\": {locked}}}"
    );
}

fn push_sources(out: &mut String, sources: &TextMap<u64>) {
    out.push('{');
    for (index, (path, sum)) in sources.iter().enumerate() {
        out.push_str(if index > 0 { ", " } else { "" });
        push_string(out, path);
        out.push_str(": ");
        push_checksum(out, *sum);
    }
    out.push('}');
}

/// Appends a checksum as 16 hexadecimal digits in quotation marks, since a JSON number loses the
/// last of 64 bits in many readers.
fn push_checksum(out: &mut String, sum: u64) {
    let _ = write!(out, "\"{sum:016x}\"");
}

fn read_checksum(value: Json) -> Result<u64, String> {
    u64::from_str_radix(&text_of(value)?, 16).map_err(|_| "no checksum".to_string())
}

fn test(value: Json) -> Result<TestId, String> {
    let mut next = members(value)?;
    Ok(TestId {
        package: text_of(next("package"))?,
        target: text_of(next("target"))?,
        name: text_of(next("name"))?,
        thread: text_of(next("thread"))?,
        nth: optional(next("nth"))?.unwrap_or(0),
        patched: next("patched") == Json::Bool(true),
    })
}

fn panic(value: Json) -> Result<Panic, String> {
    let mut next = members(value)?;
    Ok(Panic {
        text: text_of(next("text"))?,
        location: optional(next("location"))?,
        actor: optional(next("actor"))?,
        who: optional_text(next("who"))?,
        task: optional(next("task"))?,
        since: number(next("since"))?,
    })
}

fn returned(value: Json) -> Result<Returned, String> {
    let mut next = members(value)?;
    Ok(Returned {
        text: optional_text(next("text"))?.unwrap_or_default(),
        location: optional(next("location"))?,
        since: number(next("since"))?,
    })
}

fn unrecorded(value: Json) -> Result<Unrecorded, String> {
    let mut next = members(value)?;
    Ok(Unrecorded {
        channels: number(next("channels"))?,
        left: number(next("left"))?,
        calls: next("calls") == Json::Bool(true),
        handles: number(next("handles"))?,
        locked: optional(next("locked"))?.unwrap_or(0),
    })
}

fn sources(value: Json) -> Result<TextMap<u64>, String> {
    let mut sources = TextMap::new();
    for (path, sum) in object(value)? {
        sources.insert(&path, read_checksum(sum)?);
    }
    Ok(sources)
}

#[cfg(test)]
mod tests {
    use super::*;
    use crate::sidecar::Sidecar;
    use crate::sidecar::tests::written_and_read;

    fn example() -> Sidecar {
        Sidecar {
            ending: Ending {
                test: Some(TestId {
                    package: "shop".into(),
                    target: "bus".into(),
                    name: "it ends".into(),
                    thread: "tests::it_ends".into(),
                    nth: 2,
                    patched: true,
                }),
                panics: vec![
                    Panic {
                        text: "a \"b\"".into(),
                        location: Some(2),
                        actor: Some(1),
                        who: Some("clerk".into()),
                        task: Some(17),
                        since: 7,
                    },
                    Panic {
                        text: String::new(),
                        location: None,
                        actor: None,
                        who: None,
                        task: None,
                        since: 9,
                    },
                ],
                ended_by: Some(1),
                hangs: true,
                returned: Some(Returned {
                    text: "Lost(3)".into(),
                    location: None,
                    since: 8,
                }),
                unrecorded: Unrecorded {
                    channels: 2,
                    left: 1,
                    calls: true,
                    handles: 0,
                    locked: 3,
                },
                root: Some("/home/me/shop".into()),
                sources: [("tests/bus.rs".into(), 1)].into(),
                journal: Some(u64::MAX),
            },
            ..Sidecar::default()
        }
    }

    #[test]
    fn each_member_is_on_a_line_of_its_own() {
        let wanted = r#"
  "test": {"package": "shop", "target": "bus", "name": "it ends", "thread": "tests::it_ends", "nth": 2, "patched": true},
  "panics": [{"text": "a \"b\"", "location": 2, "actor": 1, "who": "clerk", "task": 17, "since": 7}, {"text": "", "location": null, "actor": null, "since": 9}],
  "ended_by": 1,
  "hangs": true,
  "returned": {"text": "Lost(3)", "location": null, "since": 8},
  "unrecorded": {"channels": 2, "left": 1, "calls": true, "handles": 0, "locked": 3},
  "root": "/home/me/shop",
  "sources": {"tests/bus.rs": "0000000000000001"},
  "journal": "ffffffffffffffff"
}
"#;
        let json = example().to_json();
        assert!(json.ends_with(wanted), "{json}");
    }

    #[test]
    fn what_is_written_is_read() {
        let json = written_and_read(example());
        let faulty = json.replace("ffffffffffffffff", "x");
        assert_eq!(
            Sidecar::read(&faulty),
            Err("its `journal`: no checksum".to_string())
        );
    }

    #[test]
    fn the_checksum_is_the_published_one() {
        // From the test vectors of the FNV reference code.
        assert_eq!(checksum(b""), 0xcbf2_9ce4_8422_2325);
        assert_eq!(checksum(b"a"), 0xaf63_dc4c_8601_ec8c);
        assert_eq!(checksum(b"foobar"), 0x8594_4171_f739_67e8);
        assert_eq!(checksum(b"chongo was here!\n"), 0x4681_0940_eff5_f915);
    }
}
