//! The entries of a run in columns, by their numbers from 1 on, and its handles by the replies of
//! the calls: what the first picture needs.

use crate::part::{NONE, Part, word};
use crate::shim::memchr::memchr;
use yovanelum_record::journal::{Run, RunEntry};
use yovanelum_record::operation::{Kind, Operation};
use yovanelum_record::reply::Reply;

/// The mark of a call in the picture, by its reply, and in one case by its word. The page has a
/// name for each number (`run/marks.js`).
fn mark_of(word: Operation, reply: Reply) -> u8 {
    match reply {
        Reply::Value(_) if word == Operation::Borrow => 0,
        Reply::Sent(_) | Reply::Stored | Reply::Old(_) | Reply::Told(_) => 1,
        Reply::NoReceivers(_) => 2,
        Reply::Value(_) | Reply::Done => 3,
        Reply::New(_) => 4,
        Reply::Dropped => 5,
        Reply::Lagged(_) => 6,
        Reply::Closed => 7,
        Reply::Unknown
        | Reply::Gone
        | Reply::WrongKind
        | Reply::TooManyHandles
        | Reply::NoSender => 8,
        _ => 0,
    }
}

/// Returns the columns of the entries: actors, channels, handles, marks, and where lines begin in
/// the journal text ([`starts_of`]). Then follow the handles: how many each channel has, and what
/// each is.
pub(crate) fn of(run: &Run, starts: Vec<u32>) -> Vec<Part> {
    let len = run.len() as usize + 1;
    let mut actors = vec![0; len];
    let mut channels = vec![0; len];
    let mut handles = vec![0; len];
    let mut marks = vec![0; len];
    let mut lives = Lives::of(run);
    for (place, entry) in run.entries() {
        let at = place as usize;
        actors[at] = entry.actor as u8;
        channels[at] = entry.channel as u8;
        handles[at] = entry.handle;
        marks[at] = mark_of(entry.word, entry.reply);
        lives.note(word(place), &entry);
    }
    let counts: Vec<u32> = lives.0.iter().map(|lives| lives.len() as u32).collect();
    let lives = lives.0.into_iter().flatten().flat_map(Life::numbers);
    vec![
        actors.into(),
        channels.into(),
        Part::of_small(handles),
        marks.into(),
        starts.into(),
        counts.into(),
        lives.collect::<Vec<u32>>().into(),
    ]
}

/// Of how many entries one has its line's start told. The page looks for the others' from there on
/// (`run/run.js`): they would take four bytes a call.
const LINES: usize = 16;

/// Returns where the lines of the first entry and of each sixteenth after it begin in a journal
/// text. Before the entries are the line of the version, a head for each channel, and the line
/// `steps`.
pub(crate) fn starts_of(journal: &[u8], heads: usize, count: u64) -> Vec<u32> {
    let mut at = 0;
    let ends = std::iter::from_fn(|| {
        at += memchr(b'\n', &journal[at..])? + 1;
        Some(at as u32)
    });
    let starts = ends.skip(heads + 1).take(count as usize);
    starts.step_by(LINES).collect()
}

/// A handle: what it is, from which place to which it lives, who used it last, or made it, and
/// where that was.
struct Life {
    kind: u32,
    from: u32,
    to: u32,
    user: u32,
    last: u32,
}

/// The numbers of the kinds: sender, receiver and weak sender.
const SENDER: u32 = 0;
const RECEIVER: u32 = 1;
const WEAK: u32 = 2;

impl Life {
    /// Until it is used a handle is its maker's. One that is never dropped lives past the last
    /// place.
    fn new(kind: u32, from: u32, past: u32, maker: u32) -> Life {
        Life {
            kind,
            from,
            to: past,
            user: maker,
            last: from,
        }
    }

    fn numbers(self) -> [u32; 5] {
        [self.kind, self.from, self.to, self.user, self.last]
    }
}

/// The handles of each channel, by number.
struct Lives(Vec<Vec<Life>>, u32);

impl Lives {
    /// Each channel opens with a sender and a receiver.
    fn of(run: &Run) -> Lives {
        let past = word(run.len() + 1);
        let opened = || {
            [SENDER, RECEIVER]
                .map(|kind| Life::new(kind, 0, past, NONE))
                .into()
        };
        Lives(run.specs().iter().map(|_| opened()).collect(), past)
    }

    /// Adds what a call says of handles. It may name one that there is not. A drop is no use,
    /// unless nobody has used or made the handle before.
    fn note(&mut self, place: u32, entry: &RunEntry) {
        let lives = &mut self.0[entry.channel as usize];
        match lives.get_mut(entry.handle as usize) {
            Some(life) if entry.reply == Reply::Dropped => {
                life.to = place;
                if life.user == NONE {
                    life.user = entry.actor;
                }
            }
            Some(life) => (life.user, life.last) = (entry.actor, place),
            None => {}
        }
        if let Reply::New(_) = entry.reply {
            let kind = match entry.word.makes() {
                Some(Kind::Sender) => SENDER,
                Some(Kind::WeakSender) => WEAK,
                _ => RECEIVER,
            };
            lives.push(Life::new(kind, place, self.1, entry.actor));
        }
    }
}
