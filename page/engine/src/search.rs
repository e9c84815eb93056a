//! Searches the calls of a run for a text. What has it of the names, as the page shows them, the
//! page says; whether a call or its reply has it is found here, in the words of the journal.

mod digits;
mod numbers;
mod shapes;

pub(crate) use self::numbers::Numbers;

use self::shapes::Shapes;
use crate::source::rw_law;
use crate::source::rw_words::write_entry;
use crate::source::rw_world::World;
use yovanelum_record::journal::{Run, RunEntry};
use yovanelum_record::operation::Operation;
use yovanelum_record::reply::Reply;
use yovanelum_record::sidecar::Sidecar;

/// An entry as the core has it.
type Line = rw_law::Entry<World<u64>>;

/// The text in small letters, and which of the run's things have it in their names, by their
/// numbers. A byte is 1 where one has it.
#[derive(Default)]
pub(crate) struct Wanted {
    pub(crate) text: Vec<u8>,
    pub(crate) actors: Vec<u8>,
    pub(crate) channels: Vec<u8>,
    /// The calls whose places in the sources have it, by their own places. It may be empty.
    pub(crate) located: Vec<u8>,
    /// By channel, the numbers of the handles.
    pub(crate) handles: Vec<Numbers>,
    /// By channel, the numbers of the values whose texts have it.
    pub(crate) values: Vec<Numbers>,
}

impl Wanted {
    /// Whether an actor, a channel or a handle has it.
    fn is_of_callers(&self) -> bool {
        [&self.actors, &self.channels]
            .iter()
            .any(|it| it.contains(&1))
            || self.handles.iter().any(|it| !it.is_empty())
    }
}

/// How many calls are searched at once. A browser makes a function faster once it was called often,
/// and not while it runs.
const AT_ONCE: usize = 4096;

/// Returns a bit for each place, 32 in a word, which is set where a call behind the lead has the
/// text.
pub(crate) fn hits(run: &Run, names: &Sidecar, wanted: &Wanted) -> Vec<u32> {
    let mut search = Search {
        names,
        lead: names.lead(),
        wanted,
        is_of_callers: wanted.is_of_callers(),
        is_of_values: wanted.values.iter().any(|it| !it.is_empty()),
        is_retold: !names.matching.waited.is_empty(),
        shapes: Shapes::of(&wanted.text),
        counts: vec![0; run.specs().len()],
        hits: vec![0; run.len() as usize / 32 + 1],
    };
    for (first, lines) in (1..).step_by(AT_ONCE).zip(run.0.entries().chunks(AT_ONCE)) {
        search.add(first, lines);
    }
    search.hits
}

struct Search<'a> {
    names: &'a Sidecar,
    /// How many calls come before a window. They are no hits.
    lead: u64,
    wanted: &'a Wanted,
    is_of_callers: bool,
    is_of_values: bool,
    /// Whether some calls are told in other words than the journal's, since they waited.
    is_retold: bool,
    shapes: Shapes<'a>,
    /// By channel, how many entries were read.
    counts: Vec<usize>,
    /// By place, a bit.
    hits: Vec<u32>,
}

impl Search<'_> {
    /// Sets the bits of these calls that have the text. The first has this place.
    #[inline(never)]
    fn add(&mut self, first: u32, lines: &[Line]) {
        for (place, line) in (first..).zip(lines) {
            let entry = RunEntry::of(line);
            let index = self.next_index(&entry);
            let is_hit = self.is_named(place, &entry) || self.is_said(line, &entry, index);
            if is_hit && u64::from(place) > self.lead {
                self.hits[place as usize / 32] |= 1 << (place % 32);
            }
        }
    }

    /// Returns how many entries of its channel come before an entry.
    fn next_index(&mut self, entry: &RunEntry) -> usize {
        let count = &mut self.counts[entry.channel as usize];
        *count += 1;
        *count - 1
    }

    /// Whether the call's place in the sources has the text, a name of its caller, or its value.
    fn is_named(&self, place: u32, entry: &RunEntry) -> bool {
        is_set(&self.wanted.located, place as usize)
            || self.is_of_callers && self.is_by_caller(entry)
            || self.is_of_values && self.has_value(entry)
    }

    /// Whether the name of the call's actor, channel or handle has the text.
    fn is_by_caller(&self, entry: &RunEntry) -> bool {
        let channel = entry.channel as usize;
        is_set(&self.wanted.actors, entry.actor as usize)
            || is_set(&self.wanted.channels, channel)
            || has(&self.wanted.handles, channel, entry.handle.into())
    }

    /// Whether the text of the value that a call sent or returned has it.
    fn has_value(&self, entry: &RunEntry) -> bool {
        let channel = entry.channel as usize;
        value_of(entry).is_some_and(|value| has(&self.wanted.values, channel, value))
    }

    /// Whether the call or its reply has the text. Most lines needn't be written for that.
    fn is_said(&mut self, line: &Line, entry: &RunEntry, index: usize) -> bool {
        let is_waited =
            self.is_retold && self.names.matching.is_waited(entry.channel, index as u32);
        if !is_waited && self.names.window.is_none() {
            return self.shapes.have(line, entry);
        }
        let mut room = [0; 256];
        let len = write_entry(line, &mut room);
        let (called, reply) = parts_of(&room[..len]);
        let is_in_reply = match entry.reply {
            Reply::New(made) => {
                let number = self.names.handle_number(entry.channel, made);
                self.is_in(format!("new {number}").as_bytes())
            }
            _ => self.is_in(reply),
        };
        is_in_reply || self.is_in(&self.renamed(entry, is_waited, called))
    }

    /// Returns a call with the name of one that waits, where it is one, and the real number of its
    /// handle.
    fn renamed(&self, entry: &RunEntry, is_waited: bool, called: &[u8]) -> Vec<u8> {
        let mut parts = called.splitn(3, |byte| *byte == b' ');
        let word = parts.next().unwrap_or_default();
        let waited = is_waited.then(|| waited(entry.word)).flatten();
        let number = self.names.handle_number(entry.channel, entry.handle.into());
        let head = [waited.map_or(word, str::as_bytes), number.as_bytes()];
        head.into_iter()
            .chain(parts.nth(1))
            .collect::<Vec<_>>()
            .join(&b' ')
    }

    fn is_in(&self, text: &[u8]) -> bool {
        let wanted = &self.wanted.text[..];
        wanted.is_empty() || text.windows(wanted.len()).any(|it| it == wanted)
    }
}

/// Returns the call and the reply of an entry's line. A stamp, an actor and a channel stand before
/// the call, and ` = ` before the reply.
fn parts_of(line: &[u8]) -> (&[u8], &[u8]) {
    let mut spaces = (0..).zip(line).filter(|(_, byte)| **byte == b' ');
    let start = spaces.nth(2).map_or(0, |(at, _)| at + 1);
    let equals = line.windows(3).position(|it| it == b" = ");
    let equals = equals.unwrap_or(line.len());
    let reply = line.get(equals + 3..).unwrap_or_default();
    (&line[start..equals], reply)
}

/// Returns the name of a call that waits, where the journal has the word of one that doesn't.
fn waited(word: Operation) -> Option<&'static str> {
    matches!(word, Operation::ReceiverCount | Operation::Update).then(|| word.marked().method())
}

/// Returns the value that a call sent or returned.
fn value_of(entry: &RunEntry) -> Option<u64> {
    match entry.reply {
        Reply::Value(value) => Some(value),
        _ => entry.value,
    }
}

fn is_set(flags: &[u8], index: usize) -> bool {
    flags.get(index) == Some(&1)
}

fn has(numbers: &[Numbers], channel: usize, number: u64) -> bool {
    numbers.get(channel).is_some_and(|it| it.has(number))
}
