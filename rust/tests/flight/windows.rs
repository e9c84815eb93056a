//! What the names beside a journal say of its window.

use super::support::named::member;
use super::support::parts::between;
use std::collections::BTreeMap;

/// How the window of a channel begins.
#[derive(Debug)]
pub struct Window {
    pub lead: u64,
    pub calls: u64,
    pub sent: Option<u64>,
    /// By the journal's number of a handle, how many were created before.
    pub handles: Vec<Option<u64>>,
    pub lags: BTreeMap<u32, u64>,
}

fn number(text: &str) -> Option<u64> {
    (text != "null").then(|| text.parse().unwrap())
}

fn window(part: &str) -> Window {
    let after = |start: &str| between(part, start, ",").parse().unwrap();
    let handles = between(part, "\"handles\": [", "]");
    let handles = handles.split(", ").filter(|text| !text.is_empty());
    let lags = between(part, "\"lags\": {", "}")
        .split(", ")
        .filter(|text| !text.is_empty());
    let lag = |text: &str| {
        let (receiver, lag) = text.split_once(": ").unwrap();
        (
            receiver.trim_matches('"').parse().unwrap(),
            lag.parse().unwrap(),
        )
    };
    Window {
        lead: between(part, "", ",").parse().unwrap(),
        calls: after("\"calls\": "),
        sent: number(between(part, "\"sent\": ", ",")),
        handles: handles.map(number).collect(),
        lags: lags.map(lag).collect(),
    }
}

/// Returns the windows of the channels, in order.
pub fn windows(names: &str) -> Vec<Window> {
    let (_, channels) = member(names, "window")
        .split_once("\"channels\": ")
        .unwrap();
    let parts = channels.split("\"lead\": ").skip(1);
    parts.map(window).collect()
}

/// How many entries the leads have together.
pub fn lead(names: &str) -> u64 {
    between(member(names, "window"), "\"lead\": ", ",")
        .parse()
        .unwrap()
}

/// What called for the journal.
pub fn trigger(names: &str) -> &str {
    between(member(names, "window"), "\"trigger\": \"", "\"")
}

/// Returns the times: stamp, milliseconds since 1970, microseconds since the start.
pub fn times(names: &str) -> Vec<[u64; 3]> {
    let list = member(names, "times");
    let parts = list
        .trim_matches(['[', ']'])
        .split("], [")
        .filter(|text| !text.is_empty());
    let time = |part: &str| {
        let numbers: Vec<u64> = part.split(", ").map(|text| text.parse().unwrap()).collect();
        numbers.try_into().unwrap()
    };
    parts.map(time).collect()
}

/// Returns the texts of an object with numbers as keys, if a value has no quotation mark.
pub fn texts(object: &str) -> BTreeMap<u64, String> {
    let parts = object
        .trim_matches(['{', '}'])
        .split("\", ")
        .filter(|text| !text.is_empty());
    let text = |part: &str| {
        let (key, text) = part.split_once(": ").unwrap();
        (
            key.trim_matches('"').parse().unwrap(),
            text.trim_matches('"').to_string(),
        )
    };
    parts.map(text).collect()
}

/// Returns the numbers of an object with numbers as keys.
pub fn numbers(object: &str) -> BTreeMap<u64, u64> {
    let parts = object.trim_matches(['{', '}']).split(", ");
    let parts = parts.filter_map(|part| part.split_once(": "));
    parts
        .map(|(key, value)| {
            (
                key.trim_matches('"').parse().unwrap(),
                value.parse().unwrap(),
            )
        })
        .collect()
}

/// Returns, of a channel, the numbers of the callers whose actor stands for several, by how many
/// entries of the channel are before.
pub fn callers(names: &str, channel: usize) -> BTreeMap<u64, u64> {
    let key = format!("\"{channel}\": {{");
    let callers = member(names, "callers").split_once(&key);
    callers.map_or_else(BTreeMap::new, |(_, rest)| {
        numbers(rest.split('}').next().unwrap())
    })
}
