//! What the journal and the account of a recorded script have to say, by the answers of tokio.

use super::seen::{Answer, Seen};
use std::collections::BTreeMap;
use std::fmt::Write;
use std::fs::{self, File};
use std::path::Path;
use yovanelum::{Json, Recorder, read_json};

/// A loss: the receiver, how many values, and whether it was told or dropped.
type Loss = (u64, u64, &'static str);

fn yes(is: bool) -> &'static str {
    if is { "yes" } else { "no" }
}

/// An answer by the words of a journal.
fn words(answer: &Answer) -> String {
    match answer {
        Answer::Sent(count) => format!("sent {count}"),
        Answer::Stored => "stored".into(),
        Answer::NoReceivers(value) => format!("no-receivers {value}"),
        Answer::Value(value) => format!("value {value}"),
        Answer::Old(value) => format!("old {value}"),
        Answer::Told(told) => format!("told {}", yes(*told)),
        Answer::Lagged(lost) => format!("lagged {lost}"),
        Answer::Empty => "empty".into(),
        Answer::Closed => "closed".into(),
        Answer::New(handle) => format!("new {handle}"),
        Answer::Dropped => "dropped".into(),
        Answer::Count(count) => format!("count {count}"),
        Answer::Flag(is) => format!("flag {}", yes(*is)),
        Answer::Done => "done".into(),
        Answer::Waits => unreachable!("a call that waits is no entry"),
    }
}

/// The entries of a journal without their stamps, one a line.
fn entries(seen: &[Seen]) -> String {
    let mut lines = String::new();
    for it in seen {
        let Seen::Call(word, handle, value, answer) = it else {
            continue;
        };
        if *answer == Answer::Waits {
            continue;
        }
        write!(lines, "0 0 {word} {handle}").unwrap();
        if let Some(value) = value {
            write!(lines, " {value}").unwrap();
        }
        if let Answer::Told(told) = answer {
            write!(lines, " {}", yes(*told)).unwrap();
        }
        writeln!(lines, " = {}", words(answer)).unwrap();
    }
    lines
}

/// Checks that a journal has the answers of tokio.
pub fn check(recorder: &Recorder, theirs: &[Seen], seed: u64) {
    let journal = recorder.journal().unwrap();
    let (_, steps) = journal.split_once("\nsteps\n").unwrap();
    let lines = steps.lines().filter(|line| *line != "end");
    let ours: String = lines
        .flat_map(|line| [line.split_once(' ').unwrap().1, "\n"])
        .collect();
    assert_eq!(ours, entries(theirs), "the journal of seed {seed}");
}

/// How many sends of a script reached nobody.
fn unreached(seen: &[Seen]) -> u64 {
    let refused = |it: &&Seen| matches!(it, Seen::Call(.., Answer::NoReceivers(_)));
    seen.iter().filter(refused).count() as u64
}

/// What each receiver of a broadcast lost that retains this many values.
fn lost(seen: &[Seen], retained: u64) -> Vec<Loss> {
    let (mut sent, mut losses) = (0, vec![]);
    // How many values each receiver had got, or lost, or had come before it.
    let mut positions = BTreeMap::from([(1, 0)]);
    for it in seen {
        let Seen::Call(word, handle, _, answer) = it else {
            continue;
        };
        match (answer, positions.get_mut(handle)) {
            (Answer::Sent(_), _) => sent += 1,
            (Answer::New(made), _) if *word != "clone-sender" => {
                positions.insert(*made, sent);
            }
            (Answer::Value(_), Some(at)) => *at += 1,
            (Answer::Lagged(lost), Some(at)) => {
                *at += lost;
                losses.push((u64::from(*handle), *lost, "told"));
            }
            (Answer::Dropped, Some(at)) if sent - *at > retained => {
                losses.push((u64::from(*handle), sent - *at - retained, "dropped"));
            }
            _ => {}
        }
    }
    losses.sort();
    losses
}

fn number(of: &Json, key: &str) -> u64 {
    match of.get(key) {
        Some(Json::Number(number)) => number.parse().unwrap(),
        _ => panic!("no number {key} in {of:?}"),
    }
}

/// What the command says of a journal.
fn account(path: &Path) -> Json {
    let said = path.with_extension("said");
    let mut out = File::create(&said).unwrap();
    let words = ["why", path.to_str().unwrap(), "--json"].map(Into::into);
    let status = yovanelum::command(words, b"", &mut out, &mut vec![]);
    assert_eq!(status, 0);
    read_json(&fs::read_to_string(&said).unwrap()).unwrap()
}

/// The losses of an account, and how many sends reached nobody.
fn told(account: &Json) -> (Vec<Loss>, u64) {
    let ends = ["told", "dropped", "open"];
    let of = |loss: &Json| {
        let end = loss.get("end").unwrap().as_text().unwrap();
        let end = ends.into_iter().find(|it| *it == end).unwrap();
        (number(loss, "receiver"), number(loss, "lost"), end)
    };
    let losses = account.get("losses").unwrap().items();
    let mut losses: Vec<Loss> = losses.iter().map(of).collect();
    losses.sort();
    let facts = account.get("facts").unwrap().items().iter();
    let unreached = facts.filter(|it| it.get("kind").unwrap().as_text() == Some("unreached"));
    (losses, unreached.map(|it| number(it, "sends")).sum())
}

/// Checks that the account of a script has its calls, the sends that reached nobody, and the values
/// that receivers lost by tokio's answers: those of a broadcast, which retains this many values.
pub fn check_account(recorder: &Recorder, theirs: &[Seen], retained: Option<u64>, seed: u64) {
    let kind = if retained.is_some() { "b" } else { "w" };
    let folder = std::env::temp_dir();
    let path = folder.join(format!("storm-{}-{kind}{seed}.journal", std::process::id()));
    recorder.save(&path).unwrap();
    let account = account(&path);
    let calls = entries(theirs).lines().count() as u64;
    assert_eq!(number(&account, "calls"), calls, "seed {seed}");
    let losses = retained.map_or(vec![], |retained| lost(theirs, retained));
    let expected = (losses, unreached(theirs));
    assert_eq!(told(&account), expected, "seed {seed}");
    for ending in ["journal", "names", "said"] {
        fs::remove_file(path.with_extension(ending)).unwrap();
    }
}
