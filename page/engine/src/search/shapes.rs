//! Which calls have a text, by the shapes of their lines: words, with room for numbers. A run has
//! few shapes. So of each the first line alone is written, and of all others the numbers are
//! compared.

use super::digits::Digits;
use super::{Line, parts_of};
use crate::source::rw_watch::WCall;
use crate::source::rw_words::write_entry;
use crate::source::rw_world::ChanCall;
use yovanelum_record::journal::RunEntry;
use yovanelum_record::operation::Operation;
use yovanelum_record::reply::Reply;

pub(super) struct Shapes<'a> {
    text: &'a [u8],
    /// The shapes that were seen, and in which ways their lines may have the text.
    seen: Vec<(Shape, Vec<Way>)>,
}

/// A call, whether it notifies, and its reply without its number, unless that is a word.
type Shape = (Operation, bool, Reply);

/// What the numbers of a line have to have, so that the text stands at one place in it. Without any
/// it stands there in each line.
type Way = Vec<Needed>;

/// The numbers of a line in their order: the handle, the value, and that of the reply.
type Numbers = [u64; 3];

/// Where that of the reply is among them.
const OF_REPLY: usize = 2;

/// Digits that a number has to have.
struct Needed {
    number: usize,
    digits: Digits,
}

impl<'a> Shapes<'a> {
    pub(super) fn of(text: &'a [u8]) -> Shapes<'a> {
        Shapes { text, seen: vec![] }
    }

    /// Whether the call of a line or its reply has the text.
    pub(super) fn have(&mut self, line: &Line, entry: &RunEntry) -> bool {
        let index = self.index_of(line, entry);
        let (_, ways) = &self.seen[index];
        if ways.is_empty() {
            return false;
        }
        let numbers = [
            entry.handle.into(),
            entry.value.unwrap_or_default(),
            entry.reply.number().unwrap_or_default(),
        ];
        ways.iter()
            .any(|way| way.iter().all(|needed| needed.is_met(&numbers)))
    }

    /// Returns where the shape of a line is among those that were seen.
    fn index_of(&mut self, line: &Line, entry: &RunEntry) -> usize {
        let tells = matches!(&line.call.call, ChanCall::W(WCall::Modify { told, .. }) if *told);
        let shape = (entry.word, tells, without_number(entry.reply));
        let known = self.seen.iter().position(|(seen, _)| *seen == shape);
        known.unwrap_or_else(|| {
            let mut room = [0; 256];
            let len = write_entry(line, &mut room);
            let (called, reply) = parts_of(&room[..len]);
            let mut ways = ways_in(self.text, called, 0);
            ways.extend(ways_in(self.text, reply, OF_REPLY));
            ways.sort_by_key(Vec::len);
            self.seen.push((shape, ways));
            self.seen.len() - 1
        })
    }
}

impl Needed {
    fn is_met(&self, numbers: &Numbers) -> bool {
        self.digits.are_in(numbers[self.number])
    }
}

/// Returns the ways in which a part of a line like this one may have the text: one for each place
/// at which the text may begin. `first` is the index of the part's first number.
fn ways_in(text: &[u8], part: &[u8], first: usize) -> Vec<Way> {
    let runs: Vec<&[u8]> = part
        .chunk_by(|one, next| one.is_ascii_digit() == next.is_ascii_digit())
        .collect();
    let mut ways = vec![];
    let mut number = first;
    for (at, run) in runs.iter().enumerate() {
        if is_number(run) {
            ways.extend(way_from_within(text, &runs[at + 1..], number));
            number += 1;
            continue;
        }
        ways.extend((0..run.len()).filter_map(|start| {
            let mut rest = runs[at..].to_vec();
            rest[0] = &run[start..];
            way_from(text, &rest, number, vec![])
        }));
    }
    ways
}

/// Returns the way in which the text may begin within a number, which the runs follow.
fn way_from_within(text: &[u8], runs: &[&[u8]], number: usize) -> Option<Way> {
    let (digits, rest) = parted(text);
    if digits.is_empty() {
        return None;
    }
    let digits = Digits::of(digits, false, !rest.is_empty())?;
    way_from(rest, runs, number + 1, vec![Needed { number, digits }])
}

/// Returns the way in which the text may stand from the start of these runs on, of which the first
/// number has this index.
fn way_from(mut text: &[u8], runs: &[&[u8]], mut number: usize, mut way: Way) -> Option<Way> {
    for run in runs {
        if text.is_empty() {
            break;
        }
        if is_number(run) {
            let (digits, rest) = parted(text);
            if digits.is_empty() {
                return None;
            }
            let digits = Digits::of(digits, true, !rest.is_empty())?;
            way.push(Needed { number, digits });
            number += 1;
            text = rest;
        } else {
            let len = run.len().min(text.len());
            text = text.strip_prefix(&run[..len])?;
        }
    }
    text.is_empty().then_some(way)
}

/// Whether a run of bytes is a number of its line.
fn is_number(run: &[u8]) -> bool {
    run[0].is_ascii_digit()
}

/// Returns the digits with which a text begins, and what follows them.
fn parted(text: &[u8]) -> (&[u8], &[u8]) {
    let digits = text.iter().take_while(|it| it.is_ascii_digit()).count();
    text.split_at(digits)
}

/// Returns a reply with 0 for its number. The number of a flag is a word in its line, so it stays.
fn without_number(reply: Reply) -> Reply {
    match reply {
        Reply::Sent(_) => Reply::Sent(0),
        Reply::NoReceivers(_) => Reply::NoReceivers(0),
        Reply::Value(_) => Reply::Value(0),
        Reply::Lagged(_) => Reply::Lagged(0),
        Reply::New(_) => Reply::New(0),
        Reply::Count(_) => Reply::Count(0),
        Reply::Old(_) => Reply::Old(0),
        other => other,
    }
}
