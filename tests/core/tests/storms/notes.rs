//! What the player of a seat records of its results, and whether these fit each other and the run.

use crate::channels::SPECS;
use crate::generator::{Choice, Generator};
use proved::rw_desk::DeskFault;
use proved::rw_journal::Run;
use proved::rw_seat::Answered;

/// How many channels there are.
const CHANNELS: usize = SPECS.len();

/// How many seats play.
pub const SEATS: u32 = 4;

/// A player's generator of calls, and what its calls returned.
pub struct Notes {
    generator: Generator,
    // The length of the last known front of each channel, from a call's result or a meeting.
    seen: [u64; CHANNELS],
    // The length of the front after each call that was made, in order.
    fronts: Vec<u64>,
    // Whether each result may follow those before it.
    fits: bool,
}

impl Notes {
    /// Makes the notes of a player before its first call.
    pub fn new(seed: u64, player: u32) -> Notes {
        Notes {
            generator: Generator::new(seed, player),
            seen: [0; CHANNELS],
            fronts: Vec::new(),
            fits: true,
        }
    }

    /// Chooses the next call.
    pub fn choose(&mut self) -> Choice {
        self.generator.choose()
    }

    /// Records a call's result. Its front has to be longer than what was seen of the channel.
    pub fn hear(&mut self, channel: u32, answer: Result<Answered<u64>, DeskFault>) {
        match (answer, self.seen.get_mut(channel as usize)) {
            (Ok(answered), Some(seen)) => {
                self.generator.hear(channel, &answered.reply);
                self.fits &= *seen < answered.front;
                *seen = answered.front;
                self.fronts.push(answered.front);
            }
            (Err(DeskFault::Waits), Some(_)) => {}
            _ => self.fits = false,
        }
    }

    /// Records a meeting with another. What is seen then has to be at least as long as what each had seen.
    pub fn hear_of_meeting(&mut self, other: &Notes, channel: u32, length: Option<u64>) {
        let at = channel as usize;
        match (length, self.seen.get_mut(at), other.seen.get(at)) {
            (Some(length), Some(seen), Some(theirs)) => {
                self.fits &= *seen <= length && *theirs <= length;
                *seen = length;
            }
            (None, None, None) => {}
            _ => self.fits = false,
        }
    }
}

/// Returns how many entries of the run each actor made, if the front of each call is its entry's place in its channel's journal.
fn calls_in_place(run: &Run<u64>, notes: &[Notes]) -> Option<[usize; SEATS as usize]> {
    let mut lengths = [0u64; CHANNELS];
    let mut made = [0usize; SEATS as usize];
    for entry in run.entries() {
        let (channel, actor) = (entry.call.channel as usize, entry.actor as usize);
        let length = lengths.get_mut(channel)?;
        let calls = made.get_mut(actor)?;
        *length += 1;
        if notes.get(actor)?.fronts.get(*calls) != Some(&*length) {
            return None;
        }
        *calls += 1;
    }
    Some(made)
}

/// Whether the front of each call is its entry's place in its channel's journal, and all results fit. The notes are in the order
/// of the actors' numbers.
pub fn are_places(run: &Run<u64>, notes: &[Notes]) -> bool {
    let Some(made) = calls_in_place(run, notes) else {
        return false;
    };
    notes
        .iter()
        .zip(made)
        .all(|(notes, calls)| notes.fits && notes.fronts.len() == calls)
}
