//! That a run is another one than that which it was to repeat, and which two of its steps decide
//! whether it fails.

use yovanelum_record::journal::Run;
use yovanelum_record::sidecar::{RaceStep, Sidecar};
use yovanelum_record::visible;

/// A replay that left the order which it followed.
#[derive(Debug)]
pub struct LeftSaid {
    /// The name of the journal's file, or of the schedule's.
    pub(super) file: String,
    /// The first call that may be another one than there, or the last one of the run, if that is
    /// known.
    pub place: Option<u64>,
    pub text: String,
}

impl LeftSaid {
    /// Returns what is said of a run, if it is such a replay.
    pub(super) fn of(run: &Run, names: &Sidecar) -> Option<LeftSaid> {
        let left = names.order.replay.as_ref()?;
        let last = left.since.map(|since| run.place_of_stamp(since));
        let from = match last {
            None => String::new(),
            Some(last) if last < run.len() => format!("from {} on, ", visible::call(last + 1)),
            Some(last) => format!("after {}, ", visible::call(last)),
        };
        let (file, why) = (visible::path(&left.file), visible::path(&left.text));
        Some(LeftSaid {
            text: format!("{from}this is another run than that of {file}: the replay {why}"),
            place: last.map(|last| (last + 1).min(run.len())),
            file,
        })
    }
}

/// The race of a run, in words.
#[derive(Debug)]
pub struct RaceSaid {
    pub text: String,
    /// What is said of both steps in it, and the places of their calls.
    pub(super) steps: [(String, Option<u64>); 2],
}

impl RaceSaid {
    /// Returns the race that was found of a run.
    pub(super) fn of(run: &Run, names: &Sidecar) -> Option<RaceSaid> {
        let race = names.order.race.as_ref()?;
        let place = |stamp: u64| {
            let place = run.place_of_stamp(stamp);
            (place > 0 && run.entry(place).stamp == stamp).then_some(place)
        };
        let step = |step: &RaceStep| (visible::path(&step.text), step.stamp.and_then(place));
        Some(RaceSaid {
            text: visible::path(&race.text),
            steps: [step(&race.first), step(&race.then)],
        })
    }
}

#[cfg(test)]
mod tests {
    use crate::account::Account;
    use crate::account::tests::account;
    use crate::report::Report;

    const ENTRIES: [&str; 3] = [
        "0 0 send 0 7 = sent 1",
        "0 0 send 0 8 = sent 1",
        "0 0 try-recv 1 = value 7",
    ];

    fn lines_of(found: Account) -> Vec<String> {
        let text = Report::of(found).text(None, false);
        text.lines().map(str::to_string).collect()
    }

    fn replayed(since: &str) -> String {
        format!(
            r#"{{"replay": {{"file": "it_ends.journal", "since": {since}, "text": "diverges at call 2 of 6: expected a, came b"}}}}"#
        )
    }

    #[test]
    fn a_replay_that_diverged_says_from_which_call_on() {
        for (since, said, place) in [
            ("0", "from call 1 on, ", "1"),
            ("1", "from call 2 on, ", "2"),
            ("3", "after call 3, ", "3"),
            // Of a window it isn't known.
            ("null", "", "null"),
        ] {
            let found = account(&["broadcast 4"], &ENTRIES, &replayed(since));
            let left = found.left.as_ref().unwrap();
            let wanted = format!(
                "{said}this is another run than that of it_ends.journal: the replay diverges at call 2 of 6: expected a, came b"
            );
            assert_eq!(left.text, wanted);
            let json = format!(
                "\"replay\": {{\"file\": \"it_ends.journal\", \"place\": {place}, \"text\": \"{wanted}\"}},\n"
            );
            assert!(found.to_json().contains(&json), "{}", found.to_json());
            let lines = lines_of(found);
            assert_eq!(lines[0], format!("yovanelum: {wanted}"));
        }
        let found = account(&["broadcast 4"], &ENTRIES, "{}");
        assert!(found.left.is_none() && !found.to_json().contains("\"replay\""));
    }

    #[test]
    fn a_race_has_the_places_of_both_calls() {
        let names = r#"{"race": {"text": "it fails where a, before b", "first": {"text": "a", "stamp": 2}, "then": {"text": "b", "stamp": 9}},
            "panics": [{"text": "", "location": null, "actor": 0, "since": 3}]}"#;
        let found = account(&["broadcast 4"], &ENTRIES, names);
        let json = r#""race": {"text": "it fails where a, before b", "first": {"text": "a", "place": 2}, "then": {"text": "b", "place": null}},"#;
        assert!(found.to_json().contains(json), "{}", found.to_json());
        let lines = lines_of(found);
        assert_eq!(
            lines[..2],
            ["failed: actor 0", "the race: it fails where a, before b"]
        );
    }
}
