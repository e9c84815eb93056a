//! What a channel is called that has no name: by the place where it was created.

use crate::sidecar::{Sidecar, SourceLocation};
use crate::visible;

/// What a channel without a name is called.
pub struct UnnamedChannel {
    number: u64,
    // Where it was created, if that is known.
    place: Option<String>,
    // Whether no other channel without a name was created there.
    is_only: bool,
}

impl UnnamedChannel {
    /// Returns what the channel of this number is called, which has no name in these names.
    pub fn of(names: &Sidecar, number: u64) -> UnnamedChannel {
        let place = made_at(names, number);
        let line = |at: &SourceLocation| (at.file.clone(), at.line);
        let own = place.map(line);
        let is_other = |other: &u64| *other != number && !names.channels.contains_key(other);
        let others = names.made.keys().filter(|other| is_other(other));
        UnnamedChannel {
            number,
            place: place.map(visible::line_of),
            is_only: others
                .filter_map(|other| made_at(names, *other))
                .all(|at| Some(line(at)) != own),
        }
    }

    /// Returns it without an article: `channel of src/bus.rs:12`. Where several were created there
    /// it has its number too, as `channel 3 of src/bus.rs:12`, and `channel 3` without a place.
    pub fn short(&self) -> String {
        match &self.place {
            Some(place) if self.is_only => format!("channel of {place}"),
            Some(place) => format!("channel {} of {place}", self.number),
            None => format!("channel {}", self.number),
        }
    }

    /// Returns the same as a sentence has it: `the channel of src/bus.rs:12`.
    pub fn in_sentence(&self) -> String {
        if self.place.is_some() && self.is_only {
            format!("the {}", self.short())
        } else {
            self.short()
        }
    }
}

/// Returns where a channel was created: where its first sender was.
fn made_at(names: &Sidecar, channel: u64) -> Option<&SourceLocation> {
    names.locations.get(*names.made.get(&channel)?.get(&0)?)
}

#[cfg(test)]
mod tests {
    use super::*;

    #[test]
    fn a_channel_is_called_by_the_only_place_that_creates_it() {
        let text = r#"{"version": 3, "channels": {"2": "orders"},
            "locations": [["src/bus.rs", 12, 5], ["src/bus.rs", 30, 5], ["src/bus.rs", 12, 40]],
            "made": {"0": {"0": 0, "1": 1}, "1": {"0": 1}, "2": {"0": 0}, "3": {"0": 1}, "4": {"1": 0}}}"#;
        let names = Sidecar::read(text).unwrap();
        let called = [0, 1, 3, 4, 5].map(|number| {
            let unnamed = UnnamedChannel::of(&names, number);
            (unnamed.short(), unnamed.in_sentence())
        });
        let wanted = [
            ("channel of src/bus.rs:12", "the channel of src/bus.rs:12"),
            ("channel 1 of src/bus.rs:30", "channel 1 of src/bus.rs:30"),
            ("channel 3 of src/bus.rs:30", "channel 3 of src/bus.rs:30"),
            ("channel 4", "channel 4"),
            ("channel 5", "channel 5"),
        ];
        assert_eq!(
            called,
            wanted.map(|(short, long)| (short.into(), long.into()))
        );
    }
}
