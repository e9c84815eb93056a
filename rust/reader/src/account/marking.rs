//! Which changes of a watch its receivers had marked as seen at a place, and which they had only
//! looked at.

use super::Context;
use yovanelum_record::journal::RunEntry;
use yovanelum_record::operation::{CallSet, Operation};
use yovanelum_record::reply::Reply;

/// What a receiver had seen.
#[derive(Clone, Copy, Default)]
pub(super) struct Seen {
    // How many changes had come up to the last that it marked.
    marked: usize,
    /// The place of the call that marked it, or 0.
    pub(super) mark: u64,
    /// The place of the first look at a change that it hadn't marked, or 0.
    pub(super) look: u64,
    /// The place of a `mark_changed` since, or 0.
    pub(super) unmark: u64,
}

/// The changes of a watch, and what its receivers had seen of them.
pub(super) struct Marking {
    // The places of the changes.
    changes: Vec<u64>,
    receivers: Vec<Seen>,
}

impl Marking {
    /// Passes over the entries of a channel up to a place.
    pub(super) fn of(context: &Context<'_>, channel: u32, up_to: u64) -> Marking {
        let mut marking = Marking {
            changes: vec![],
            receivers: vec![Seen::default(); 2],
        };
        let entries = (1..=up_to).map(|place| (place, context.run.entry(place)));
        for (place, entry) in entries.filter(|(_, entry)| entry.channel == channel) {
            marking.note(place, &entry);
        }
        marking
    }

    fn note(&mut self, place: u64, entry: &RunEntry) {
        let changes = self.changes.len();
        match entry.reply {
            Reply::Stored | Reply::Old(_) | Reply::Told(1) => self.changes.push(place),
            // They are numbered in the order in which they are created. A clone has seen what its
            // original has.
            Reply::New(_) => {
                let original = self.receivers.get(entry.handle as usize).copied();
                let of_clone = original.filter(|_| entry.word == Operation::CloneReceiver);
                self.receivers.push(of_clone.unwrap_or(Seen {
                    marked: changes,
                    ..Seen::default()
                }));
            }
            Reply::Value(_) | Reply::Done => {
                if let Some(seen) = self.receivers.get_mut(entry.handle as usize) {
                    seen.note(place, entry.word, changes);
                }
            }
            _ => {}
        }
    }

    /// Returns what a receiver had seen.
    pub(super) fn seen(&self, receiver: u32) -> Seen {
        let seen = self.receivers.get(receiver as usize);
        seen.copied().unwrap_or_default()
    }

    /// Returns the place of the last change, or 0.
    pub(super) fn last_change(&self) -> u64 {
        self.changes.last().copied().unwrap_or(0)
    }

    /// Returns the place of the last change that a receiver hadn't marked, or 0.
    pub(super) fn unmarked(&self, receiver: u32) -> u64 {
        let marked = self.seen(receiver).marked;
        self.changes
            .get(marked..)
            .and_then(|it| it.last())
            .copied()
            .unwrap_or(0)
    }
}

impl Seen {
    fn note(&mut self, place: u64, word: Operation, changes: usize) {
        if word == Operation::MarkChanged {
            self.unmark = place;
        } else if word.is(CallSet::MARKS) {
            *self = Seen {
                marked: changes,
                mark: place,
                ..Seen::default()
            };
        } else if word == Operation::Borrow && self.marked < changes && self.look == 0 {
            self.look = place;
        }
    }
}
