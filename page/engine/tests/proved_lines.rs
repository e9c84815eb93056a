//! What the page gets is what the proved lines say, over random runs: losses, closings, totals,
//! handles, values, levels and entries.

use page_engine::engine::Engine;
use page_engine::part::Part;
use page_engine::proved::{self, Global, Opened, Stretches};

/// What stands for no number.
const NONE: u32 = u32::MAX;

/// Numbers that look random, and are the same each time.
struct Chance(u64);

impl Chance {
    fn below(&mut self, most: u64) -> u64 {
        self.0 = self
            .0
            .wrapping_mul(6_364_136_223_846_793_005)
            .wrapping_add(1_442_695_040_888_963_407);
        (self.0 >> 33) % most
    }
}

/// A script over two broadcasts and a watch, by handles that there may not be.
fn script(chance: &mut Chance) -> String {
    let mut lines = vec![
        format!("broadcast {}", 1 + chance.below(5)),
        "broadcast 2".into(),
        "watch 7".into(),
        "actors 4".into(),
    ];
    for value in 0..5 + chance.below(120) {
        let (actor, channel, handle) = (chance.below(4), chance.below(3), chance.below(5));
        let words = match chance.below(12) {
            0 => format!("subscribe {handle}"),
            1 => format!("clone-sender {handle}"),
            2 => format!("drop {handle}"),
            3 if channel < 2 => format!("downgrade {handle}"),
            3..=6 if channel < 2 => format!("try-recv {handle}"),
            3..=6 => format!(
                "{} {handle}",
                ["borrow", "update", "has-changed", "mark-changed"][chance.below(4) as usize]
            ),
            _ => format!("send 0 {value}"),
        };
        lines.push(format!("{actor} {channel} {words}"));
    }
    lines.join("\n") + "\n"
}

/// Opens a script. Returns the journal text of its run too, and the parts.
fn run_of(script: &str) -> (Engine, Vec<u8>, Vec<Part>) {
    let mut engine = Engine::default();
    let parts = engine.open(script.as_bytes().to_vec()).unwrap();
    let Part::Bytes(journal) = &parts[0] else {
        panic!("no text")
    };
    let journal = journal.clone();
    (engine, journal, parts)
}

fn opened(journal: &[u8]) -> Opened {
    Opened::of_text(Global, journal).unwrap().unwrap()
}

fn lines(text: proved::Vec<u8>) -> Vec<String> {
    let text: Vec<u8> = text.into_iter().collect();
    String::from_utf8(text)
        .unwrap()
        .lines()
        .map(String::from)
        .collect()
}

fn words(part: &Part) -> &[u32] {
    match part {
        Part::Words(list) => list,
        _ => panic!("no words"),
    }
}

fn text(number: u32) -> String {
    if number == NONE {
        "-".into()
    } else {
        number.to_string()
    }
}

/// The lines that these numbers stand for, `width` to a line.
fn said(part: &Part, width: usize, line: impl Fn(&[String]) -> String) -> Vec<String> {
    words(part)
        .chunks(width)
        .map(|numbers| line(&numbers.iter().copied().map(text).collect::<Vec<_>>()))
        .collect()
}

/// The lines that `Opened::losses` has of these losses.
fn loss_lines(part: &Part) -> Vec<String> {
    said(part, 6, |it| match it[4].as_str() {
        "2" => format!("loss {} open", it[..4].join(" ")),
        end => format!(
            "loss {} {} {}",
            it[..4].join(" "),
            ["told", "dropped"][end.parse::<usize>().unwrap()],
            it[5]
        ),
    })
}

fn handle_lines(handles: &Part, callers: &Part) -> Vec<String> {
    let mut start = 0;
    let lines = words(handles).chunks(7).map(|it| {
        let kind = ["sender", "receiver", "weak-sender"][it[2] as usize];
        let callers: String = words(callers)[start..it[6] as usize]
            .iter()
            .map(|number| format!(" {number}"))
            .collect();
        start = it[6] as usize;
        format!(
            "handle {} {} {kind} {} {} {}{callers}",
            it[0],
            it[1],
            it[3],
            text(it[4]),
            text(it[5])
        )
    });
    lines.collect()
}

/// The lines of the values without their numbers and the values themselves, which the page has of
/// its journal.
fn value_lines(sends: &Part, overwritten: &Part, ends: &Part) -> Vec<String> {
    let (mut lines, mut start) = (vec![], 0);
    for (channel, end) in words(ends).iter().enumerate() {
        for index in start..*end {
            lines.push(format!(
                "value {channel} {} {}",
                words(sends)[index as usize],
                text(words(overwritten)[index as usize])
            ));
        }
        start = start.max(*end);
    }
    lines
}

/// What the page doesn't get of a line: how often a receiver was told, how many changes there were,
/// and the number and the word of a value.
fn without(line: &str) -> String {
    let parts: Vec<&str> = line.split(' ').collect();
    let left = match parts[0] {
        "broadcast" => [&parts[..4], &parts[5..]].concat(),
        "watch" => [&parts[..3], &parts[4..]].concat(),
        "value" => [&parts[..2], &parts[4..]].concat(),
        _ => parts,
    };
    left.join(" ")
}

#[test]
fn what_is_found_is_what_the_proved_lines_say() {
    let mut chance = Chance(68);
    let mut kinds = std::collections::BTreeSet::new();
    for _ in 0..400 {
        let (mut engine, journal, _) = run_of(&script(&mut chance));
        let mut proved = opened(&journal);
        assert_eq!(
            loss_lines(&engine.losses().unwrap()[0]),
            lines(proved.losses(Global).unwrap())
        );
        let parts = engine.found().unwrap();
        let mut made = said(&parts[0], 2, |it| format!("closed {}", it.join(" ")));
        made.extend(said(&parts[1], 4, |it| format!("late {}", it.join(" "))));
        let mut totals = said(&parts[2], 7, |it| format!("broadcast {}", it.join(" ")));
        totals.extend(said(&parts[3], 4, |it| format!("watch {}", it.join(" "))));
        made.extend(totals);
        made.extend(handle_lines(&parts[4], &parts[5]));
        made.extend(value_lines(&parts[6], &parts[7], &parts[8]));
        // The totals of broadcasts come first here, whichever channel they are of.
        let mut wanted: Vec<_> = lines(proved.found(Global).unwrap())
            .iter()
            .map(|line| without(line))
            .collect();
        wanted.sort();
        made.sort();
        assert_eq!(made, wanted);
        kinds.extend(
            wanted
                .iter()
                .map(|line| line.split(' ').next().unwrap().to_string()),
        );
    }
    assert!(
        ["closed", "late", "broadcast", "watch", "handle", "value"]
            .iter()
            .all(|kind| kinds.contains(*kind)),
        "{kinds:?}"
    );
}

/// The line that stands for the spans of a receiver.
fn level_line(kind: &str, numbers: &[u32], count: u32) -> String {
    let mut levels = vec![0; count as usize];
    for span in numbers[3..].chunks(3) {
        levels[span[0] as usize..span[1] as usize].fill(span[2]);
    }
    let levels: String = levels.iter().map(|level| format!(" {level}")).collect();
    format!("{kind} {} {}{levels}", numbers[0], numbers[1])
}

#[test]
fn levels_are_what_the_proved_lines_say() {
    let mut chance = Chance(7);
    for _ in 0..200 {
        let script = script(&mut chance);
        let capacity: u64 = script.lines().next().unwrap()["broadcast ".len()..]
            .parse()
            .unwrap();
        let capacities = [capacity.next_power_of_two(), 2, u64::MAX];
        let (mut engine, journal, _) = run_of(&script);
        let stretches = Stretches {
            from: chance.below(9),
            each: 1 + chance.below(9),
            count: 1 + chance.below(12),
        };
        let parts = engine.levels(&[2, 0, 1], stretches).unwrap();
        let (mut made, mut at) = (vec![], 0);
        let numbers = words(&parts[0]);
        while at < numbers.len() {
            let end = at + 3 + numbers[at + 2] as usize;
            let kind = if numbers[at] == 2 { "unseen" } else { "unread" };
            made.push(level_line(kind, &numbers[at..end], stretches.count as u32));
            at = end;
        }
        let peaks = lines(
            opened(&journal)
                .peaks(Global, stretches, &[2, 0, 1])
                .unwrap(),
        );
        let wanted = peaks.iter().filter(|line| !line.starts_with("lag"));
        let cut = |line: &String| {
            let parts: Vec<&str> = line.split(' ').collect();
            let most = capacities[parts[1].parse::<usize>().unwrap()];
            let levels = parts[3..]
                .iter()
                .map(|level| level.parse::<u64>().unwrap().min(most).to_string());
            parts[..3]
                .iter()
                .map(|part| part.to_string())
                .chain(levels)
                .collect::<Vec<_>>()
                .join(" ")
        };
        assert_eq!(made, wanted.map(cut).collect::<Vec<_>>());
    }
}

#[test]
fn the_columns_are_those_of_the_lines_of_the_journal() {
    let mut chance = Chance(3);
    for _ in 0..100 {
        let (_, journal, parts) = run_of(&script(&mut chance));
        let [
            _,
            _,
            Part::Bytes(actors),
            Part::Bytes(channels),
            Part::Halves(handles),
            Part::Bytes(marks),
            Part::Words(starts),
            ..,
        ] = &parts[..]
        else {
            panic!("other columns");
        };
        let text = std::str::from_utf8(&journal).unwrap();
        let entries: Vec<_> = text
            .lines()
            .skip_while(|line| *line != "steps")
            .skip(1)
            .collect();
        for (at, line) in (1..).zip(&entries[..entries.len() - 1]) {
            let mut lines = text[starts[(at - 1) / 16] as usize..].lines();
            assert_eq!(lines.nth((at - 1) % 16), Some(*line));
            let (called, reply) = line.split_once(" = ").unwrap();
            let called: Vec<&str> = called.split(' ').collect();
            let mark = match (called[3], reply.split(' ').next().unwrap()) {
                ("borrow", "value") => 0,
                (_, "sent" | "stored" | "old" | "told") => 1,
                (_, "no-receivers") => 2,
                (_, "value" | "done") => 3,
                (_, "new") => 4,
                (_, "dropped") => 5,
                (_, "lagged") => 6,
                (_, "closed") => 7,
                (_, "unknown" | "gone" | "wrong-kind" | "too-many-handles" | "no-sender") => 8,
                _ => 0,
            };
            let made = [
                u32::from(actors[at]),
                u32::from(channels[at]),
                u32::from(handles[at]),
                u32::from(marks[at]),
            ];
            let number = |index: usize| called[index].parse::<u32>().unwrap();
            assert_eq!(made, [number(1), number(2), number(4), mark], "{line}");
        }
    }
}

/// Reads numbers one after the other.
struct Numbers<'a>(std::slice::Iter<'a, u32>);

impl Numbers<'_> {
    fn next(&mut self) -> u32 {
        *self.0.next().unwrap()
    }

    fn value(&mut self) -> u64 {
        u64::from(self.next()) | u64::from(self.next()) << 32
    }

    fn list(&mut self, item: impl Fn(&mut Self) -> String) -> String {
        let items: Vec<_> = (0..self.next()).map(|_| item(self)).collect();
        format!("[{}]", items.join(","))
    }

    fn handles(&mut self) -> String {
        self.list(|it| it.next().to_string())
    }

    /// The object of a channel without its members `made` and `queued`, which the page doesn't get.
    fn channel(&mut self) -> String {
        let (kind, closed) = (self.next(), self.next() == 1);
        if kind == 1 {
            let (value, version, senders) = (self.value(), self.next(), self.handles());
            let receivers = self.list(|it| {
                let (handle, mark, seen) = (it.next(), it.next(), it.next() == 1);
                let mark = if mark == NONE {
                    "null".into()
                } else {
                    mark.to_string()
                };
                format!(r#"{{"handle":{handle},"mark":{mark},"seen":{seen}}}"#)
            });
            return format!(
                r#"{{"closed":{closed},"kind":"watch","receivers":{receivers},"senders":{senders},"value":{value},"version":{version}}}"#
            );
        }
        let (capacity, sent, retained) = (self.next(), self.next(), self.next());
        let window = self.list(|it| it.value().to_string());
        assert_eq!(
            retained as usize,
            if window == "[]" {
                0
            } else {
                window.split(',').count()
            }
        );
        let (senders, weak) = (self.handles(), self.handles());
        let receivers = self.list(|it| {
            let [handle, position, unread, lag] = [it.next(), it.next(), it.next(), it.next()];
            format!(r#"{{"handle":{handle},"lag":{lag},"position":{position},"unread":{unread}}}"#)
        });
        let weak = if weak == "[]" {
            String::new()
        } else {
            format!(r#","weak":{weak}"#)
        };
        format!(
            r#"{{"capacity":{capacity},"closed":{closed},"kind":"broadcast","receivers":{receivers},"senders":{senders},"sent":{sent}{weak},"window":{window}}}"#
        )
    }
}

/// A line without the members of this name, which are numbers.
fn without_member(line: &str, name: &str) -> String {
    let member = format!("\"{name}\":");
    let mut parts = line.split(&member);
    let first = parts.next().unwrap().to_string();
    parts.fold(first, |line, part| line + part.split_once(',').unwrap().1)
}

#[test]
fn states_are_those_of_the_proved_lines() {
    let mut chance = Chance(9);
    for _ in 0..100 {
        let (mut engine, journal, parts) = run_of(&script(&mut chance));
        let last = u64::from(words(&parts[1])[0]);
        // Forward, back, and places that there are not.
        let places: Vec<u64> = (0..=last)
            .chain((0..=last).rev().step_by(3))
            .chain([last + 1, u64::MAX, last / 2])
            .collect();
        let lines = lines(opened(&journal).states(Global, &places).unwrap());
        let states = engine.states(&places).unwrap();
        let mut numbers = Numbers(words(&states[0]).iter());
        for line in &lines {
            let place = numbers.next();
            let channels = [numbers.channel(), numbers.channel(), numbers.channel()].join(",");
            let wanted = without_member(&without_member(line, "made"), "queued");
            assert_eq!(
                format!(r#"{{"channels":[{channels}],"len":{last},"place":{place}}}"#),
                wanted
            );
        }
        assert_eq!(numbers.0.len(), 0);
    }
}
