//! The account of a run, as the command prints it: what of it is compared with the definitions, and
//! that its parts agree.

use super::expected::{Loss, Said};
use std::fs::{self, File};
use std::path::Path;
use yovanelum::Json;

/// What the command `why` prints of a journal.
pub fn why(path: &Path, words: &[&str]) -> String {
    let printed = path.with_extension("said");
    let words = [&["why", path.to_str().unwrap()], words].concat();
    let words = words.into_iter().map(Into::into);
    let mut told = vec![];
    let mut out = File::create(&printed).unwrap();
    assert_eq!(yovanelum::command(words, b"", &mut out, &mut told), 0);
    fs::read_to_string(&printed).unwrap()
}

pub fn number(of: &Json, key: &str) -> Option<u64> {
    match of.get(key) {
        Some(Json::Number(number)) => Some(number.parse().unwrap()),
        _ => None,
    }
}

fn texts(of: &Json, key: &str) -> Vec<String> {
    let items = of.get(key).unwrap().items().iter();
    items.map(|it| it.as_text().unwrap().to_string()).collect()
}

/// What is compared of the facts of an account.
pub fn said(facts: &[Json]) -> Vec<Said> {
    let kinds = [
        ("loss", &["lost", "of", "losses"][..]),
        ("unreached", &["sends"]),
        ("unlearned", &["changes", "of"]),
        ("unlooked", &["changes", "of"]),
        ("unmarked", &["changes", "of"]),
        ("closing", &["receivers", "told"]),
    ];
    let of = |fact: &Json| {
        let word = fact.get("kind").unwrap().as_text().unwrap();
        let (kind, keys) = kinds.iter().find(|(kind, _)| *kind == word).unwrap();
        let numbers = keys.iter().map(|key| number(fact, key).unwrap()).collect();
        let channel = number(fact, "channel").unwrap() as u32;
        let receiver = number(fact, "receiver").filter(|_| *kind != "closing");
        (*kind, channel, receiver.map(|it| it as u32), numbers)
    };
    let mut all: Vec<Said> = facts.iter().map(of).collect();
    all.sort();
    all
}

/// The losses of an account.
pub fn losses(account: &Json) -> Vec<Loss> {
    let of = |loss: &Json| {
        let end = loss.get("end").unwrap().as_text().unwrap();
        let ends = ["told", "dropped", "open"];
        let end = ends.into_iter().find(|it| *it == end).unwrap();
        let at = |key| number(loss, key);
        let [channel, receiver] = ["channel", "receiver"].map(|key| at(key).unwrap() as u32);
        let (from, lost) = (at("from").unwrap(), at("lost").unwrap());
        (from, channel, receiver, at("to"), lost, end)
    };
    account
        .get("losses")
        .unwrap()
        .items()
        .iter()
        .map(of)
        .collect()
}

/// Checks what of an account comes of its facts: their order, those that are told in full, and the
/// line that counts the others; and that the report has the lines of all this.
pub fn check_report(account: &Json, report: &str, calls: u64) {
    let facts = account.get("facts").unwrap().items();
    let orders: Vec<u64> = facts
        .iter()
        .map(|it| number(it, "order").unwrap())
        .collect();
    assert!(orders.is_sorted(), "{orders:?}");
    let rest = account.get("rest").unwrap();
    let after = number(rest, "after").unwrap() as usize;
    let earlier = orders.iter().filter(|order| **order <= 12).count();
    assert!(earlier == 0 || after == earlier.min(3), "{orders:?}");
    for (kind, key, things, values) in [
        ("loss", "losses", "receivers", "lost"),
        ("unlearned", "unlearned", "receivers", "changes"),
        ("unlooked", "unlooked", "receivers", "changes"),
        ("unmarked", "unmarked", "receivers", "changes"),
    ] {
        let left = facts[after..].iter();
        let left = left.filter(|it| it.get("kind").unwrap().as_text() == Some(kind));
        let left: Vec<u64> = left.map(|it| number(it, values).unwrap()).collect();
        let counted = rest.get(key).unwrap();
        let counted = (number(counted, things), number(counted, values_of(values)));
        assert_eq!(
            counted,
            (Some(left.len() as u64), Some(left.iter().sum())),
            "{kind}"
        );
    }
    let lines = facts[..after].iter().flat_map(|fact| texts(fact, "text"));
    let counted = rest.get("text").unwrap().as_text().map(str::to_string);
    let mut left = report;
    for line in lines.chain(counted) {
        let at = left.find(&line);
        let at = at.unwrap_or_else(|| panic!("{line:?} isn't in this order in {report}"));
        left = &left[at + line.len()..];
    }
    let closings = facts[after..].iter();
    let closings = closings.filter(|it| it.get("kind").unwrap().as_text() == Some("closing"));
    assert_eq!(number(rest, "closings"), Some(closings.count() as u64));
    let all = losses(account);
    facts.iter().for_each(|fact| check_fact(fact, &all));
    let look = look_of(facts);
    assert!(
        look.is_none() || look == number(account, "look"),
        "{look:?}"
    );
    let nothing = account.get("nothing").unwrap().as_text();
    let is_none = losses(account).is_empty() && orders.iter().all(|order| *order > 9);
    assert_eq!(nothing.is_some(), is_none, "{nothing:?}");
    if let Some(nothing) = nothing {
        assert!(
            nothing.contains(&format!("no value was lost in {calls} call")),
            "{nothing}"
        );
    }
}

/// Checks the words and the steps of a fact by its numbers, and by these losses.
fn check_fact(fact: &Json, losses: &[Loss]) {
    let head = &texts(fact, "text")[0];
    let count = |key| number(fact, key).unwrap();
    let has = |text: String| assert!(head.contains(&text), "{text:?} isn't in {head:?}");
    match fact.get("kind").unwrap().as_text().unwrap() {
        "loss" => {
            has(format!(" lost {} of {} value", count("lost"), count("of")));
            check_told_loss(fact, losses);
        }
        "unlearned" => has(format!(
            " never learned of {} of {} change",
            count("changes"),
            count("of")
        )),
        "unlooked" => has(format!(
            " marked {} of {} change",
            count("changes"),
            count("of")
        )),
        "unmarked" => has(format!(
            " never marked {} of {} change",
            count("changes"),
            count("of")
        )),
        "closing" if count("receivers") > 1 => {
            has(format!(
                "{} of {} receivers were told",
                count("told"),
                count("receivers")
            ));
        }
        _ => {}
    }
}

/// Of the losses of a receiver that of the least order is told: the last that it was told of, or
/// else the greatest.
fn check_told_loss(fact: &Json, losses: &[Loss]) {
    let whose = (number(fact, "channel"), number(fact, "receiver"));
    let own = losses.iter();
    let own = own.filter(|(_, channel, receiver, ..)| {
        (Some(u64::from(*channel)), Some(u64::from(*receiver))) == whose
    });
    let rank = |(.., to, lost, end): &Loss| match *end {
        "told" => (true, to.unwrap()),
        _ => (false, *lost),
    };
    let most = own.clone().map(rank).max();
    let mut told = own.filter(|loss| Some(rank(loss)) == most);
    let step = |role| {
        let mut steps = fact.get("places").unwrap().items().iter();
        let step = steps.find(|it| it.get("role").unwrap().as_text() == Some(role));
        step.map(|it| number(it, "place").unwrap())
    };
    let end = fact.get("end").unwrap().as_text().unwrap();
    let is_told = |(from, _, _, to, _, ended): &Loss| {
        end == *ended && step("cause") == Some(*from) && (to.is_none() || step(end) == *to)
    };
    assert!(told.any(is_told), "{fact:?} of {losses:?}");
}

/// The place that is worth looking at first, of the first fact, if its kind says it.
fn look_of(facts: &[Json]) -> Option<u64> {
    let first = facts.first()?;
    let mut steps = first.get("places").unwrap().items().iter();
    let is_mark = first.get("kind").unwrap().as_text() == Some("unlooked");
    let mut roles = steps.clone().map(|it| it.get("role").unwrap().as_text());
    let at = roles.position(|it| match it {
        Some("mark") => is_mark,
        Some("change") => !is_mark,
        other => matches!(other, Some("cause" | "close")),
    })?;
    number(steps.nth(at)?, "place")
}

/// The key of the sum in the rest, of what a fact counts.
fn values_of(key: &str) -> &str {
    if key == "lost" { "values" } else { key }
}
