//! What the names say of the order in which the calls of a run were made: where a replay left the
//! one that it followed, and which two steps decide in a run that a search found.

use super::json::Json;
use super::reading::{members, optional, text_of};
use super::{push_optional, push_some, push_string};
use std::fmt::Write;

/// What is known of the order of a run.
#[derive(Clone, Debug, Default, PartialEq, Eq)]
pub struct CallOrder {
    pub replay: Option<LeftReplay>,
    pub race: Option<RaceFound>,
}

/// Where a replay left the order that it followed.
#[derive(Clone, Debug, Default, PartialEq, Eq)]
pub struct LeftReplay {
    /// The name of the journal's file, or of the schedule's.
    pub file: String,
    /// The calls with stamps up to this were made in its order, if that is known.
    pub since: Option<u64>,
    /// Where it left it and why, as `diverges at call 2 of 6: expected .., came ..`.
    pub text: String,
}

/// The two steps whose order decides whether a run fails.
#[derive(Clone, Debug, Default, PartialEq, Eq)]
pub struct RaceFound {
    /// All of it, as `it fails where .., before .., and passes the other way round`.
    pub text: String,
    pub first: RaceStep,
    pub then: RaceStep,
}

/// One of these steps.
#[derive(Clone, Debug, Default, PartialEq, Eq)]
pub struct RaceStep {
    /// What is said of it in the text.
    pub text: String,
    /// The stamp of its call, if it is one of the run.
    pub stamp: Option<u64>,
}

impl CallOrder {
    /// Appends the members of the document that aren't empty.
    pub(super) fn push(&self, out: &mut String) {
        push_some(out, "replay", self.replay.as_ref(), push_replay);
        push_some(out, "race", self.race.as_ref(), push_race);
    }

    /// Reads a member of the document, if it is one of these. Returns `false` if it is another.
    pub(super) fn read(&mut self, key: &str, value: &Json) -> Result<bool, String> {
        match key {
            "replay" => self.replay = Some(replay(value.clone())?),
            "race" => self.race = Some(race(value.clone())?),
            _ => return Ok(false),
        }
        Ok(true)
    }
}

fn push_replay(out: &mut String, left: &LeftReplay) {
    out.push_str("{\"file\": ");
    push_string(out, &left.file);
    out.push_str(", \"since\": ");
    push_optional(out, &left.since);
    out.push_str(", \"text\": ");
    push_string(out, &left.text);
    out.push('}');
}

fn push_race(out: &mut String, race: &RaceFound) {
    out.push_str("{\"text\": ");
    push_string(out, &race.text);
    for (key, step) in &[("first", &race.first), ("then", &race.then)] {
        let _ = write!(out, ", \"{key}\": {{\"text\": ");
        push_string(out, &step.text);
        out.push_str(", \"stamp\": ");
        push_optional(out, &step.stamp);
        out.push('}');
    }
    out.push('}');
}

fn replay(value: Json) -> Result<LeftReplay, String> {
    let mut next = members(value)?;
    Ok(LeftReplay {
        file: text_of(next("file"))?,
        since: optional(next("since"))?,
        text: text_of(next("text"))?,
    })
}

fn race(value: Json) -> Result<RaceFound, String> {
    let mut next = members(value)?;
    Ok(RaceFound {
        text: text_of(next("text"))?,
        first: step(next("first"))?,
        then: step(next("then"))?,
    })
}

fn step(value: Json) -> Result<RaceStep, String> {
    let mut next = members(value)?;
    Ok(RaceStep {
        text: text_of(next("text"))?,
        stamp: optional(next("stamp"))?,
    })
}

#[cfg(test)]
mod tests {
    use super::*;
    use crate::sidecar::Sidecar;
    use crate::sidecar::tests::written_and_read;

    fn example() -> Sidecar {
        let step = |text: &str, stamp| RaceStep {
            text: text.to_string(),
            stamp,
        };
        Sidecar {
            order: CallOrder {
                replay: Some(LeftReplay {
                    file: "it \"ends\".journal".into(),
                    since: Some(4),
                    text: "diverges at call 2 of 6".into(),
                }),
                race: Some(RaceFound {
                    text: "it fails where a, before b".into(),
                    first: step("a", Some(3)),
                    then: step("b", None),
                }),
            },
            ..Sidecar::default()
        }
    }

    #[test]
    fn each_member_is_on_a_line_of_its_own() {
        let wanted = r#"
  "replay": {"file": "it \"ends\".journal", "since": 4, "text": "diverges at call 2 of 6"},
  "race": {"text": "it fails where a, before b", "first": {"text": "a", "stamp": 3}, "then": {"text": "b", "stamp": null}}
}
"#;
        let json = example().to_json();
        assert!(json.ends_with(wanted), "{json}");
    }

    #[test]
    fn what_is_written_is_read() {
        let json = written_and_read(example());
        let faulty = json.replace("\"since\": 4", "\"since\": -4");
        let fault = Sidecar::read(&faulty).unwrap_err();
        assert!(fault.starts_with("its `replay`: "), "{fault}");
    }
}
