//! Walks over random runs, beside the console of `ttd`, and beside runs of the first calls alone.

use super::{Condition, Entry, Walk};
use crate::console;
use crate::random_journals::{Random, random_journal, random_of, runs};
use std::fmt::Write as _;
use yovanelum_core::source::rw_navigator::Cond;

/// Returns what the console prints for `state` and `step`.
fn shown(walk: &Walk) -> String {
    let step = match walk.entry(walk.place()) {
        Some(entry) => format!("#{} {entry}", walk.place()),
        None => "no step".to_string(),
    };
    format!("{}{step}\n", walk.state())
}

/// A command of the console, and the method that does the same.
type Move = (&'static str, fn(&mut Walk) -> bool);

/// Walks from the end to the start and back, and returns what is shown at each place, and the
/// commands that show it in the console.
fn walked(walk: &mut Walk) -> (String, String) {
    let (mut shows, mut commands) = (shown(walk), "state\nstep\n".to_string());
    let moves: [Move; 2] = [("back", Walk::back), ("forward", Walk::forward)];
    for (command, step) in moves {
        while step(walk) {
            let _ = write!(commands, "{command}\nstate\nstep\n");
            let (place, len) = (walk.place(), walk.len());
            let _ = write!(shows, "place {place} of {len}\n{}", shown(walk));
        }
    }
    (shows, commands)
}

/// First words of replies.
const REPLIES: [&str; 8] = [
    "sent", "value", "lagged", "closed", "stored", "done", "new", "flag",
];

/// Returns a condition, which may name nothing.
fn random_condition(random: &mut Random) -> Condition {
    let mut number = |below| u64::from(random.below(below));
    let (channel, handle, count) = (number(3), number(5), number(4));
    match number(9) {
        0 => Condition::actor(count),
        1 => Condition::channel(channel),
        2 => Condition::reply(REPLIES[number(8) as usize]).unwrap(),
        3 => Condition::unread(channel, handle, count),
        4 => Condition::lagging(channel, handle),
        5 => Condition::unseen(channel, handle),
        6 => Condition::version(channel, count),
        7 => Condition::closed(channel),
        _ => Condition::queue(channel, count),
    }
}

/// Goes to random places and searches from there. Returns what the console answers, and the
/// commands.
fn searched(walk: &mut Walk, random: &mut Random) -> (String, String) {
    let (mut answers, mut commands) = (String::new(), String::new());
    for _ in 0..8 {
        let from = u64::from(random.below(walk.len() as u32 + 1));
        assert!(walk.go_to(from));
        let condition: Condition = random_condition(random).to_string().parse().unwrap();
        let is_back = random.below(2) == 0;
        let (word, found) = if is_back {
            ("rback", walk.find_back(&condition))
        } else {
            ("rforward", walk.find_forward(&condition))
        };
        let _ = writeln!(commands, "goto {from}\n{word} {condition}");
        let len = walk.len();
        let answer = match found {
            Some(hit) => format!("hit {hit} of {len}"),
            None => format!("no hit, place {from} of {len}"),
        };
        assert_eq!(walk.place(), found.unwrap_or(from));
        let _ = writeln!(answers, "place {from} of {len}\n{answer}");
    }
    (answers, commands)
}

/// Returns what the console of `ttd` answers, or `None` where no program can be started.
fn console(journal: &str, commands: &str) -> Option<String> {
    let ttd = console::ttd()?;
    let path = crate::temporary::path("walked.journal");
    std::fs::write(&path, journal).unwrap();
    let written = console::written(&ttd, &path, commands);
    std::fs::remove_file(path).unwrap();
    Some(written)
}

#[test]
fn random_runs_are_shown_as_by_the_console_in_both_directions() {
    for seed in 0..runs() {
        let journal = random_journal(seed);
        let mut walk = Walk::open(journal.as_bytes()).unwrap();
        assert_eq!(walk.place(), walk.len());
        let (shows, commands) = walked(&mut walk);
        let (answers, searches) = searched(&mut walk, &mut random_of(seed));
        let Some(said) = console(&journal, &(commands + &searches)) else {
            return;
        };
        assert_eq!(said, shows + &answers, "{journal}");
    }
}

/// Returns the journal of the first calls of this one.
fn first_of(journal: &str, calls: usize) -> String {
    let head = journal.lines().take_while(|line| *line != "steps");
    let entries = journal.lines().filter(|line| line.contains(" = "));
    let lines = head.chain(["steps"]).chain(entries.take(calls));
    lines
        .chain(["end"])
        .map(|line| format!("{line}\n"))
        .collect()
}

#[test]
fn random_runs_are_shown_as_the_runs_of_their_first_calls() {
    for seed in 0..runs() / 4 {
        let journal = random_journal(seed);
        let mut walk = Walk::open(journal.as_bytes()).unwrap();
        let of_place = |place: u64| {
            let first = first_of(&journal, place as usize);
            let shown = Walk::open(first.as_bytes()).unwrap().state().to_string();
            shown.replacen(
                &format!(" of {place}\n"),
                &format!(" of {}\n", walk.len()),
                1,
            )
        };
        let wanted: Vec<_> = (0..=walk.len()).map(of_place).collect();
        for place in (0..=walk.len()).rev() {
            assert_eq!(
                walk.state().to_string(),
                wanted[place as usize],
                "{journal}"
            );
            assert_eq!(walk.back(), place > 0);
        }
        for place in 0..=walk.len() {
            assert_eq!(
                walk.state().to_string(),
                wanted[place as usize],
                "{journal}"
            );
            assert_eq!(walk.forward(), place < walk.len());
        }
    }
}

#[test]
fn hits_are_counted_up_to_the_place() {
    let (mut most, mut counted) = (0, 0);
    for seed in 0..runs() / 10 {
        let journal = random_journal(seed);
        let mut walk = Walk::open(journal.as_bytes()).unwrap();
        let mut random = random_of(seed);
        let condition = random_condition(&mut random);
        let here = u64::from(random.below(walk.len() as u32 + 1));
        assert!(walk.go_to(here));
        let hits = walk.hits_so_far(&condition);
        assert_eq!(walk.place(), here);
        // Counted from the other end: each hit is found from the one above it. The place itself may
        // be one.
        let mut backwards = 0;
        if walk.forward() || walk.is_empty() {
            while walk.find_back(&condition).is_some() {
                backwards += 1;
            }
            assert_eq!(hits, backwards, "{condition} at {here} of {journal}");
            counted += 1;
        }
        most = most.max(hits);
    }
    assert!(
        most > 3 && counted > 0,
        "{most} hits at most, in {counted} runs"
    );
}

/// Returns conditions on calls, of which some have no hit.
fn conditions_on_calls() -> Vec<Condition> {
    let numbered = (0..5).flat_map(|number| [Condition::actor(number), Condition::channel(number)]);
    let replies = REPLIES.map(|reply| Condition::reply(reply).unwrap());
    numbered.chain(replies).collect()
}

/// Whether a call meets a condition on calls, by what is shown of the call.
fn is_met(entry: &Entry, condition: &Condition) -> bool {
    match condition.0 {
        Cond::Actor(actor) => u64::from(entry.actor()) == actor,
        Cond::Channel(channel) => u64::from(entry.channel()) == channel,
        Cond::ReplyKind(word) => entry.reply().as_bytes() == word.text(),
        _ => unreachable!("{condition} is on states"),
    }
}

/// Asserts that searches from each place find the calls that a scan finds, and that counting the
/// hits makes no call.
fn finds_as_a_scan(walk: &mut Walk, condition: &Condition) {
    let places = 1..=walk.len();
    let hits: Vec<_> = places
        .filter(|place| is_met(&walk.entry(*place).unwrap(), condition))
        .collect();
    for place in 0..=walk.len() {
        let below = hits.iter().copied().rfind(|hit| *hit < place);
        let above = hits.iter().copied().find(|hit| *hit > place);
        walk.go_to(place);
        assert_eq!(walk.find_back(condition), below, "{condition} at {place}");
        assert_eq!(walk.place(), below.unwrap_or(place));
        walk.go_to(place);
        assert_eq!(
            walk.find_forward(condition),
            above,
            "{condition} at {place}"
        );
        assert_eq!(walk.place(), above.unwrap_or(place));
        walk.go_to(place);
        let turns = walk.debugger.turns();
        let so_far = hits.iter().filter(|hit| **hit <= place).count() as u64;
        assert_eq!(
            walk.hits_so_far(condition),
            so_far,
            "{condition} at {place}"
        );
        assert_eq!(walk.debugger.turns(), turns);
    }
}

#[test]
fn calls_are_found_by_an_index_as_by_a_scan() {
    for seed in 0..runs() / 10 {
        let mut walk = Walk::open(random_journal(seed).as_bytes()).unwrap();
        for condition in conditions_on_calls() {
            finds_as_a_scan(&mut walk, &condition);
            assert!(walk.debugger.index_of(condition.0).is_some());
        }
        walk.find_back(&Condition::lagging(0, 1));
        let of_states = walk.debugger.index_of(Cond::Lagging {
            channel: 0,
            handle: 1,
        });
        assert!(of_states.is_none());
    }
}

#[test]
fn texts_that_are_no_condition_are_refused() {
    for text in [
        "",
        "lagging",
        "lagging 0",
        "lagging 0 1 2",
        "lagging  0 1",
        "lagging 0 x",
        "lagging 0 1 ",
        " lagging 0 1",
        "reply",
        "reply late",
        "Lagging 0 1",
        "closed -1",
        "closed 18446744073709551616",
        "late 0 1",
    ] {
        assert!(text.parse::<Condition>().is_err(), "{text:?}");
    }
    let most = "closed 18446744073709551615";
    assert_eq!(most.parse::<Condition>().unwrap().to_string(), most);
}
