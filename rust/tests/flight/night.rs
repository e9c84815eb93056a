//! The night of a service, as the example runs it: many connections, each with a name.

#[allow(dead_code)]
#[path = "../../examples/night.rs"]
mod example;

use super::support::named::member;
use super::support::temporary;
use super::windows::{callers, texts};
use std::collections::BTreeMap;
use std::fs;
use std::time::Duration;

#[test]
fn each_of_many_connections_has_its_name_in_the_last_dump() {
    let folder = temporary::fresh("flight-night");
    let night = example::night(1_000, Duration::ZERO, &folder).unwrap();
    assert_eq!(night.dumps.failed(), 0);
    let journal = fs::read_to_string(&night.last).unwrap();
    let names = fs::read_to_string(night.last.with_extension("names")).unwrap();
    let actors = texts(member(&names, "actors"));
    let callers: Vec<_> = (0..9).map(|channel| callers(&names, channel)).collect();
    let (mut seen, mut before) = (0, BTreeMap::<usize, u64>::new());
    for line in journal.lines().filter(|line| line.contains(" = ")) {
        let mut words = line.split(' ').skip(1).map(|word| word.parse().unwrap());
        let (actor, channel): (usize, usize) = (words.next().unwrap(), words.next().unwrap());
        let index = before.entry(channel).or_default();
        if actor == 62 {
            let caller = callers[channel][&*index];
            assert!(actors[&caller].starts_with("conn "), "{}", actors[&caller]);
            seen += 1;
        }
        *index += 1;
    }
    // Each room has calls of more connections than there are numbers.
    assert!(seen > 1_000, "{seen}");
    fs::remove_dir_all(&folder).unwrap();
}
