//! Reads the names beside a journal, of which each key has a line of its own.

use std::collections::BTreeMap;

/// Returns the JSON of a key, or an empty text if the names have no such key.
pub fn member<'a>(names: &'a str, key: &str) -> &'a str {
    let start = format!("  \"{key}\": ");
    let lines = names.lines();
    let found = lines.filter_map(|line| line.strip_prefix(&start)).next();
    found.map_or("", |json| json.strip_suffix(',').unwrap_or(json))
}

/// Returns the checksum that names have of a file, as their text: FNV-1a of 64 bits.
pub fn checksum(bytes: &[u8]) -> String {
    let mut sum: u64 = 14_695_981_039_346_656_037;
    for byte in bytes {
        sum ^= u64::from(*byte);
        sum = sum.wrapping_mul(1_099_511_628_211);
    }
    format!("{sum:016x}")
}

/// Returns the parts of a JSON list, or of an object, without the brackets.
fn parts<'a>(json: &'a str, between: &'static str) -> impl Iterator<Item = &'a str> {
    let inner = json.get(1..json.len().max(2) - 1).unwrap_or("");
    inner.split(between).filter(|part| !part.is_empty())
}

/// Returns the locations: each with its file and its line.
pub fn locations(names: &str) -> Vec<(String, u32)> {
    let all = parts(member(names, "locations"), "], ");
    let location = |part: &str| {
        let mut words = part.trim_matches(['[', ']']).split(", ");
        let file = words.next().unwrap().trim_matches('"').to_string();
        (file, words.next().unwrap().parse().unwrap())
    };
    all.map(location).collect()
}

/// Returns the index of a location, or `None` for `null`.
fn index(json: &str) -> Option<usize> {
    (json != "null").then(|| json.parse().unwrap())
}

/// Returns the indexes of each channel's calls, in order.
fn calls(names: &str) -> BTreeMap<usize, Vec<Option<usize>>> {
    let channels = parts(member(names, "calls"), "], ");
    let calls_of = |part: &str| {
        let (channel, calls) = part.split_once(": [").unwrap();
        let calls = calls.trim_end_matches(']').split(", ").map(index);
        (channel.trim_matches('"').parse().unwrap(), calls.collect())
    };
    channels.map(calls_of).collect()
}

/// Returns the line of each call on a channel, in order. Asserts that all are in this file.
pub fn call_lines(names: &str, channel: usize, file: &str) -> Vec<Option<u32>> {
    let locations = locations(names);
    let line = |index: usize| {
        assert_eq!(locations[index].0, file);
        locations[index].1
    };
    let calls = calls(names).remove(&channel).unwrap_or_default();
    calls.into_iter().map(|call| call.map(line)).collect()
}

/// Returns the line at which each handle of a channel was made.
pub fn made_lines(names: &str, channel: usize) -> Vec<(u32, u32)> {
    let locations = locations(names);
    let mut channels = parts(member(names, "made"), "}, ");
    let start = format!("\"{channel}\": {{");
    let made = channels.find_map(|part| part.strip_prefix(&start)).unwrap();
    let made = made.trim_end_matches('}').split(", ");
    made.map(|part| {
        let (handle, index) = part.split_once(": ").unwrap();
        let index: usize = index.parse().unwrap();
        (
            handle.trim_matches('"').parse().unwrap(),
            locations[index].1,
        )
    })
    .collect()
}

/// Asserts that the names have one item for each entry of this journal, and that each index is that
/// of a location.
pub fn assert_each_call_has_its_place(journal: &str, names: &str) {
    let mut entries = BTreeMap::new();
    for entry in journal.lines().filter(|line| line.contains(" = ")) {
        let channel: usize = entry.split(' ').nth(2).unwrap().parse().unwrap();
        *entries.entry(channel).or_insert(0) += 1;
    }
    let count = locations(names).len();
    let calls = calls(names);
    let mut indexes = calls.values().flatten().flatten();
    assert!(indexes.all(|index| *index < count));
    let counted = calls.iter().map(|(channel, calls)| (*channel, calls.len()));
    assert_eq!(counted.collect::<BTreeMap<_, _>>(), entries);
}
