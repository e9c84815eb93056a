//! What the names say for a replay, which matches the calls and channels of another run with those
//! of the journal.

use super::json::Json;
use super::reading::{by_number, list, number, optional_text};
use super::{push_flag, push_items, push_list, push_map, push_number, push_string};
use crate::listed::IntoList;
use crate::numbered::{NumberMap, NumberSet};
use std::sync::Arc;

/// Who has made a channel, and how many channels of its run they had made before.
#[derive(Clone, Debug, PartialEq, Eq, Hash)]
pub struct Maker {
    /// The name of the thread or named future. `None` stands for all that nobody named.
    pub name: Option<Arc<str>>,
    pub nth: u64,
}

/// What a replay needs besides the journal.
#[derive(Clone, Debug, Default, PartialEq, Eq)]
pub struct Matching {
    /// The maker of each channel.
    pub made_by: NumberMap<u64, Maker>,
    /// The actors that nobody named: threads and tasks without a name.
    pub unnamed: NumberSet<u64>,
    /// By channel, the entries of the `closed` of a broadcast and of looks by `wait_for`: how many
    /// entries of the channel are before each. The journal has the same words for calls that don't
    /// wait.
    pub waited: NumberMap<u64, Vec<u64>>,
    /// By channel, the drops that were made by the drop of a named future, in the same way.
    pub cancelled: NumberMap<u64, Vec<u64>>,
    /// Whether questions left no entry, from some call on.
    pub is_quiet: bool,
    /// Whether the test failed.
    pub has_failed: bool,
}

impl Matching {
    /// Whether an entry of a channel is of a call that waits, of two whose words the journal has
    /// for others too.
    pub fn is_waited(&self, channel: u32, index: u32) -> bool {
        let waited = self.waited.get(&channel.into());
        waited.is_some_and(|entries| entries.binary_search(&index.into()).is_ok())
    }

    /// Appends the members of the document that aren't empty.
    pub(super) fn push(&self, out: &mut String) {
        push_map(out, "made_by", &self.made_by, push_maker);
        let unnamed: Vec<_> = self.unnamed.iter().listed();
        push_items(out, "unnamed", &unnamed, push_number);
        for (key, entries) in &[("waited", &self.waited), ("cancelled", &self.cancelled)] {
            push_map(out, key, entries, |out, entries| {
                push_list(out, entries, push_number)
            });
        }
        push_flag(out, "quiet", self.is_quiet);
        push_flag(out, "failed", self.has_failed);
    }

    /// Reads a member of the document, if it is one of these.
    pub(super) fn read(&mut self, key: &str, value: Json) -> Result<(), String> {
        match key {
            "made_by" => self.made_by = by_number(value, maker)?,
            "unnamed" => self.unnamed = list(value, number)?.into_iter().collect(),
            "waited" => self.waited = by_number(value, |entries| list(entries, number))?,
            "cancelled" => self.cancelled = by_number(value, |entries| list(entries, number))?,
            "quiet" => self.is_quiet = value == Json::Bool(true),
            "failed" => self.has_failed = value == Json::Bool(true),
            _ => (),
        }
        Ok(())
    }
}

fn push_maker(out: &mut String, maker: &Maker) {
    out.push('[');
    match &maker.name {
        Some(name) => push_string(out, name),
        None => out.push_str("null"),
    }
    out.push_str(", ");
    push_number(out, &maker.nth);
    out.push(']');
}

/// Reads a maker: a list of its name, or null, and of how many channels it had made before.
fn maker(value: Json) -> Result<Maker, String> {
    let mut parts = list(value, Ok)?.into_iter();
    let mut next = || parts.next().unwrap_or(Json::Null);
    Ok(Maker {
        name: optional_text(next())?.map(Into::into),
        nth: number(next())?,
    })
}

#[cfg(test)]
mod tests {
    use super::*;
    use crate::sidecar::Sidecar;
    use crate::sidecar::tests::written_and_read;

    fn example() -> Sidecar {
        let maker = |name: Option<&str>, nth| Maker {
            name: name.map(Into::into),
            nth,
        };
        Sidecar {
            matching: Matching {
                made_by: [(0, maker(Some("the \"test\""), 0)), (1, maker(None, 1))].into(),
                unnamed: [1, 4].into_iter().collect(),
                waited: [(0, vec![3, 7])].into(),
                cancelled: [(1, vec![2])].into(),
                is_quiet: true,
                has_failed: true,
            },
            ..Sidecar::default()
        }
    }

    #[test]
    fn each_member_is_on_a_line_of_its_own() {
        let wanted = r#"
  "made_by": {"0": ["the \"test\"", 0], "1": [null, 1]},
  "unnamed": [1, 4],
  "waited": {"0": [3, 7]},
  "cancelled": {"1": [2]},
  "quiet": true,
  "failed": true
}
"#;
        let json = example().to_json();
        assert!(json.ends_with(wanted), "{json}");
    }

    #[test]
    fn what_is_written_is_read() {
        let json = written_and_read(example());
        let faulty = json.replace("[null, 1]", "[null, -1]");
        let fault = Sidecar::read(&faulty).unwrap_err();
        assert!(fault.starts_with("its `made_by`: "), "{fault}");
    }
}
