//! Reads a file of names, of this version or an earlier one. What a reader doesn't know is left
//! out.

use super::json::{self, Json, JsonReader};
use super::{HeldBy, Sidecar, SourceLocation, VERSION_OF_TASKS, WaitingCall, tasks_seen, window};
use crate::listed::Keep;
use crate::numbered::NumberMap;

impl Sidecar {
    /// Reads the text of a file of names. Keys that are not known are left out, and so are keys
    /// that are missing.
    ///
    /// # Errors
    ///
    /// Returns what is wrong with the text, or that its version is a later one.
    pub fn read(text: &str) -> Result<Sidecar, String> {
        Sidecar::read_or(text, |_, fault| Err(fault))
    }

    /// The same, where a reader may leave out a key whose value has a fault: it is given the key
    /// and the fault.
    ///
    /// # Errors
    ///
    /// Returns what is wrong with the text as a whole, or what the reader returns.
    pub fn read_or(
        text: &str,
        leave: impl Fn(&str, String) -> Result<(), String>,
    ) -> Result<Sidecar, String> {
        Sidecar::by_members(text).or_else(|_| Sidecar::of_document(text, leave))
    }

    /// Reads a text that has no fault. The texts of values, the places of calls and the account are
    /// the most of a long run's names. As values of JSON they would take several times their bytes.
    fn by_members(text: &str) -> Result<Sidecar, String> {
        let mut names = Sidecar::default();
        json::read_members(text, &mut |reader, key| match key.as_str() {
            "values" => numbered(reader, |reader| numbered(reader, next_text))
                .map(|values| names.values = values),
            "calls" => numbered(reader, next_indexes).map(|calls| names.calls = calls),
            "account" => reader.pass(1),
            key => names.read_key(key, reader.value(1)?),
        })?;
        Ok(names)
    }

    /// Reads any text. Which fault it has is known once all of it is read.
    fn of_document(
        text: &str,
        leave: impl Fn(&str, String) -> Result<(), String>,
    ) -> Result<Sidecar, String> {
        let mut names = Sidecar::default();
        for (key, value) in object(json::read(text)?)? {
            let read = names.read_key(&key, value);
            read.or_else(|fault| leave(&key, of_key(&key, fault)))?;
        }
        Ok(names)
    }

    fn read_key(&mut self, key: &str, value: Json) -> Result<(), String> {
        if self.ending.read(key, &value)? || self.order.read(key, &value)? {
            return Ok(());
        }
        match key {
            "version" => version(value),
            "actors" => texts(value).map(|actors| self.actors = actors),
            "channels" => texts(value).map(|channels| self.channels = channels),
            "values" => by_number(value, texts).map(|values| self.values = values),
            "handles" => by_number(value, texts).map(|handles| self.handles = handles),
            "locations" => list(value, location).map(|list| self.locations = list),
            "made" => by_number(value, indexes).map(|made| self.made = made),
            "calls" => by_number(value, optional_indexes).map(|calls| self.calls = calls),
            "callers" => by_number(value, indexes).map(|callers| self.callers = callers),
            "tasks" => indexes(value).map(|tasks| self.tasks = tasks),
            "waiting" => list(value, waiting).map(|waiting| self.waiting = waiting),
            "waited_at_failure" => list(value, waiting).map(|waits| self.waited_at_failure = waits),
            "dropped_waits" => list(value, waiting).map(|waits| self.dropped_waits = waits),
            "dropped_at" => by_number(value, indexes).map(|drops| self.dropped_at = drops),
            "dropped_in" => by_number(value, texts).map(|drops| self.dropped_in = drops),
            "window" => window::window(value).map(|window| self.window = Some(window)),
            "times" => window::times(value).map(|times| self.times = times),
            "tasks_seen" => tasks_seen::read(value).map(|seen| self.tasks_seen = Some(seen)),
            other => self.matching.read(other, value),
        }
    }

    /// Returns the text of a file of names with this account of its run. What else it has stays,
    /// also what isn't known here.
    ///
    /// # Errors
    ///
    /// Returns what is wrong with the text.
    pub fn with_account(text: &str, account: &str) -> Result<String, String> {
        let mut members = object(json::read(text)?)?;
        members.keep(|(key, _)| key != "account");
        members.push(("account".to_string(), json::read(account)?));
        let mut out = String::new();
        Json::Object(members).push(&mut out);
        Ok(out + "\n")
    }
}

fn of_key(key: &str, fault: String) -> String {
    format!("its `{key}`: {fault}")
}

/// Refuses a version that may mean something else by the same keys.
fn version(value: Json) -> Result<(), String> {
    let version: u64 = number(value)?;
    if version > VERSION_OF_TASKS {
        Err(format!(
            "{version} is later than {VERSION_OF_TASKS}, the last one that this program reads"
        ))
    } else {
        Ok(())
    }
}

pub(super) fn object(value: Json) -> Result<Vec<(String, Json)>, String> {
    match value {
        Json::Object(members) => Ok(members),
        _ => Err("no object".to_string()),
    }
}

/// Reads an object. Each member is taken once, by its name. One that isn't there is null.
pub(super) fn members(value: Json) -> Result<impl FnMut(&str) -> Json, String> {
    let mut members = object(value)?;
    Ok(move |key: &str| {
        let place = members.iter().rposition(|(name, _)| name == key);
        place.map_or(Json::Null, |place| members.remove(place).1)
    })
}

pub(super) fn text_of(value: Json) -> Result<String, String> {
    match value {
        Json::Text(text) => Ok(text),
        _ => Err("no text".to_string()),
    }
}

pub(super) fn number<N: TryFrom<u64>>(value: Json) -> Result<N, String> {
    let number = match value {
        Json::Number(number) => number.parse().ok(),
        _ => None,
    };
    number
        .and_then(|number: u64| N::try_from(number).ok())
        .ok_or_else(|| "no number, or one that is too great".to_string())
}

/// How an item is read.
pub(super) type ReadItem<T> = fn(Json) -> Result<T, String>;

pub(super) fn list<T>(value: Json, item: ReadItem<T>) -> Result<Vec<T>, String> {
    let Json::List(values) = value else {
        return Err("no list".to_string());
    };
    let mut items = Vec::with_capacity(values.len());
    for value in values {
        items.push(item(value)?);
    }
    Ok(items)
}

/// Reads an object whose keys are numbers.
pub(super) fn by_number<T>(value: Json, item: ReadItem<T>) -> Result<NumberMap<u64, T>, String> {
    let mut items = NumberMap::new();
    for (key, value) in object(value)? {
        items.insert(number_of(&key)?, item(value)?);
    }
    Ok(items)
}

fn number_of(key: &str) -> Result<u64, String> {
    key.parse().map_err(|_| format!("`{key}` is no number"))
}

/// Reads the next value of a document as such an object. `item` reads each of its items.
fn numbered<T>(
    reader: &mut JsonReader<'_>,
    item: impl Fn(&mut JsonReader<'_>) -> Result<T, String>,
) -> Result<NumberMap<u64, T>, String> {
    let mut items = NumberMap::new();
    reader.members(&mut |reader, key| {
        items.insert(number_of(&key)?, item(reader)?);
        Ok(())
    })?;
    Ok(items)
}

/// Reads the next value of a document as a text.
fn next_text(reader: &mut JsonReader<'_>) -> Result<String, String> {
    text_of(reader.value(3)?)
}

/// Reads it as a list of numbers, some of which may be null.
fn next_indexes(reader: &mut JsonReader<'_>) -> Result<Vec<Option<usize>>, String> {
    let mut indexes = vec![];
    reader.items(|reader| {
        indexes.push(optional(reader.value(3)?)?);
        Ok(())
    })?;
    Ok(indexes)
}

fn texts(value: Json) -> Result<NumberMap<u64, String>, String> {
    by_number(value, text_of)
}

fn indexes(value: Json) -> Result<NumberMap<u64, usize>, String> {
    by_number(value, number)
}

/// Reads a text, or null.
pub(super) fn optional_text(value: Json) -> Result<Option<String>, String> {
    match value {
        Json::Null => Ok(None),
        value => text_of(value).map(Some),
    }
}

fn optional_indexes(value: Json) -> Result<Vec<Option<usize>>, String> {
    list(value, optional)
}

/// Reads a number, or null.
pub(super) fn optional<N: TryFrom<u64>>(value: Json) -> Result<Option<N>, String> {
    match value {
        Json::Null => Ok(None),
        value => number(value).map(Some),
    }
}

/// Reads a location: a list of file, line and column.
fn location(value: Json) -> Result<SourceLocation, String> {
    let mut parts = list(value, Ok)?.into_iter();
    let mut next = || parts.next().unwrap_or(Json::Null);
    Ok(SourceLocation {
        file: text_of(next())?,
        line: number(next())?,
        column: number(next())?,
    })
}

fn waiting(value: Json) -> Result<WaitingCall, String> {
    let mut next = members(value)?;
    Ok(WaitingCall {
        actor: number(next("actor"))?,
        channel: number(next("channel"))?,
        handle: number(next("handle"))?,
        call: text_of(next("call"))?,
        since: number(next("since"))?,
        location: optional(next("location"))?,
        held_by: match next("held_by") {
            Json::Null => None,
            holder => Some(held_by(holder)?),
        },
        woken: match next("woken") {
            Json::Bool(is_woken) => Some(is_woken),
            _ => None,
        },
        until: optional(next("until"))?,
        waited: optional(next("waited"))?,
    })
}

fn held_by(value: Json) -> Result<HeldBy, String> {
    let mut next = members(value)?;
    Ok(HeldBy {
        actor: optional(next("actor"))?,
        location: optional(next("location"))?,
    })
}

#[cfg(test)]
mod tests {
    use super::*;

    #[test]
    fn each_key_is_read() {
        let names = Sidecar::read(
            r#"{
                "version": 2,
                "actors": {"0": "ticker", "12": "a \"b\""},
                "channels": {"0": "prices"},
                "values": {"0": {"0": "101 EUR", "1": "102 EUR"}},
                "handles": {"0": {"1": "auditor"}},
                "locations": [["tests/bus.rs", 15, 9], ["src/worker.rs", 30, 5]],
                "made": {"0": {"0": 0, "1": 1}},
                "calls": {"0": [1, null]},
                "tasks": {"3": 1},
                "waiting": [{"actor": 3, "channel": 0, "handle": 1, "call": "recv", "since": 12, "location": null, "held_by": {"actor": 0, "location": 1}}],
                "waited_at_failure": [{"actor": 2, "channel": 1, "handle": 4, "call": "closed", "since": 5, "location": null, "woken": true}],
                "dropped_waits": [{"actor": 3, "channel": 0, "handle": 1, "call": "recv", "since": 2, "location": 0, "until": 4, "waited": 30012}],
                "dropped_at": {"0": {"1": 0}},
                "dropped_in": {"0": {"1": "shop::read"}},
                "later": [{}]
            }"#,
        )
        .unwrap();
        let location = |file: &str, line, column| SourceLocation {
            file: file.to_string(),
            line,
            column,
        };
        let wanted = Sidecar {
            actors: NumberMap::from([(0, "ticker".to_string()), (12, "a \"b\"".to_string())]),
            channels: NumberMap::from([(0, "prices".to_string())]),
            values: NumberMap::from([(
                0,
                NumberMap::from([(0, "101 EUR".to_string()), (1, "102 EUR".to_string())]),
            )]),
            handles: NumberMap::from([(0, NumberMap::from([(1, "auditor".to_string())]))]),
            locations: vec![
                location("tests/bus.rs", 15, 9),
                location("src/worker.rs", 30, 5),
            ],
            made: NumberMap::from([(0, NumberMap::from([(0, 0), (1, 1)]))]),
            calls: NumberMap::from([(0, vec![Some(1), None])]),
            tasks: NumberMap::from([(3, 1)]),
            waiting: vec![WaitingCall {
                actor: 3,
                handle: 1,
                call: "recv".to_string(),
                since: 12,
                held_by: Some(HeldBy {
                    actor: Some(0),
                    location: Some(1),
                }),
                ..WaitingCall::default()
            }],
            waited_at_failure: vec![WaitingCall {
                actor: 2,
                channel: 1,
                handle: 4,
                call: "closed".to_string(),
                since: 5,
                woken: Some(true),
                ..WaitingCall::default()
            }],
            dropped_at: NumberMap::from([(0, NumberMap::from([(1, 0)]))]),
            dropped_in: NumberMap::from([(0, NumberMap::from([(1, "shop::read".to_string())]))]),
            dropped_waits: vec![WaitingCall {
                actor: 3,
                handle: 1,
                call: "recv".to_string(),
                since: 2,
                location: Some(0),
                until: Some(4),
                waited: Some(30_012),
                ..WaitingCall::default()
            }],
            ..Sidecar::default()
        };
        assert_eq!(names, wanted);
    }

    #[test]
    fn what_is_read_by_members_is_what_is_read_of_the_whole_document() {
        let text = r#" {"version": 3, "values": {"0": {"1": "a\n", "0": "é"}, "2": {}, "0": {"7": "b"}},
            "calls": {"1": [0, null], "0": []}, "actors": {"3": "x"}, "account": {"a": [1, [], {}, "\u00e9"]}, "later": [{"values": 1}], "failed": true}"#;
        let starts = text.char_indices().map(|(at, _)| at);
        let cuts = starts.clone().map(|at| text[..at].to_string());
        let changed = starts.flat_map(|at| {
            let next = text[at..].chars().next().map_or(0, char::len_utf8);
            let with = [
                "", "\"", "\\", "{", "}", "[", "]", ",", ":", " ", "0", "-", "\n", "n",
            ];
            with.map(|it| format!("{}{it}{}", &text[..at], &text[at + next..]))
        });
        let mut read = 0;
        for text in [text.to_string()].into_iter().chain(cuts).chain(changed) {
            let by_members = Sidecar::by_members(&text).ok();
            let of_document = Sidecar::of_document(&text, |_, fault| Err(fault)).ok();
            assert_eq!(by_members, of_document, "{text}");
            read += u32::from(by_members.is_some());
        }
        assert!(read > 100, "{read} were read");
    }

    #[test]
    fn a_file_of_an_older_version_is_read() {
        // `core` said that another core than the proved one had answered.
        let names = Sidecar::read(
            r#"{"core": "plain", "actors": {}, "channels": {"1": "state"}, "values": {}}"#,
        );
        let wanted = Sidecar {
            channels: NumberMap::from([(1, "state".to_string())]),
            ..Sidecar::default()
        };
        assert_eq!(names, Ok(wanted));
    }

    #[test]
    fn what_is_wrong_is_said_with_its_key() {
        for (text, fault) in [
            ("[]", "no object"),
            ("{", "line 1: `\"` is missing"),
            (
                r#"{"actors": {"x": "a"}}"#,
                "its `actors`: `x` is no number",
            ),
            (
                r#"{"calls": {"0": [-1]}}"#,
                "its `calls`: no number, or one that is too great",
            ),
            (
                r#"{"locations": [["a.rs", 1]]}"#,
                "its `locations`: no number, or one that is too great",
            ),
            (r#"{"waiting": {}}"#, "its `waiting`: no list"),
        ] {
            assert_eq!(Sidecar::read(text), Err(fault.to_string()), "{text}");
        }
    }
}
