//! Breakpoints. Each is the sorted list of the places that it stops at, so the next one in either
//! direction is a binary search.

mod filters;
mod kinds;
mod logs;

pub(crate) use filters::FILTERS;
pub(crate) use logs::Log;

use crate::arguments::Arguments;
use crate::expression::Expression;
use crate::recording::{Places, Recording};
use crate::sources::Bases;
use crate::{Answer, Refusal};
use serde_json::{Value, json};
use std::collections::BTreeMap;

/// A breakpoint that stops somewhere, or a log point.
pub(crate) struct Breakpoint {
    pub(crate) id: u64,
    pub(crate) reason: &'static str,
    pub(crate) hits: Places,
    pub(crate) log: Option<Log>,
}

/// The breakpoints of a session.
#[derive(Default)]
pub(crate) struct Breakpoints {
    last_id: u64,
    // By what the client sets at once: those of a source, of functions, of data, or of exceptions.
    sets: BTreeMap<String, Set>,
}

/// What one request has set.
struct Set {
    command: &'static str,
    given: Value,
    // What the client was told of each that it asked for, with numbers one after the other.
    told: Vec<Value>,
    breakpoints: Vec<Breakpoint>,
}

/// A breakpoint that was asked for: where it is, and what the client is told.
struct Asked<'a> {
    given: Arguments<'a>,
    reason: &'static str,
    // The places before its condition is asked, or why there are none.
    hits: Result<Places, String>,
    // What the client is told besides: its line and its source.
    told: Value,
}

impl Breakpoints {
    /// All breakpoints, in no order.
    pub(crate) fn all(&self) -> impl Iterator<Item = &Breakpoint> {
        self.sets.values().flat_map(|set| &set.breakpoints)
    }

    /// Sets in another recording what was set before, with the same numbers. Returns the
    /// changed ones, as the client gets them.
    pub(crate) fn renewed(
        before: Breakpoints,
        bases: Bases,
        recording: &mut Recording,
    ) -> (Breakpoints, Vec<Value>) {
        let (mut all, mut changed) = (Breakpoints::default(), vec![]);
        for (name, set) in before.sets {
            let first = set.told.first().and_then(|it| it["id"].as_u64());
            all.last_id = first.map_or(0, |first| first - 1);
            let answer = Arguments::of(&set.given)
                .and_then(|given| all.set(set.command, given, bases, recording));
            let now = all.sets.get(&name).filter(|_| answer.is_ok());
            let now = now.map_or(&[][..], |now| &now.told);
            changed.extend(now.iter().filter(|it| !set.told.contains(it)).cloned());
        }
        all.last_id = before.last_id;
        (all, changed)
    }

    /// Sets breakpoints by a request.
    pub(crate) fn set(
        &mut self,
        command: &str,
        given: Arguments<'_>,
        bases: Bases,
        recording: &mut Recording,
    ) -> Answer {
        match command {
            "setBreakpoints" => self.set_of_source(given, bases, recording),
            "setFunctionBreakpoints" => self.set_functions(given, recording),
            "setDataBreakpoints" => self.set_data(given, recording),
            "setExceptionBreakpoints" => self.set_exceptions(given, recording),
            other => Err(Refusal(format!(
                "`{other}` isn't supported: a recording doesn't change"
            ))),
        }
    }

    /// Replaces a set, and returns the answer. A breakpoint with an error is answered as one that
    /// isn't verified.
    fn replace(
        &mut self,
        (name, command): (String, &'static str),
        given: Arguments<'_>,
        asked: Vec<Asked<'_>>,
        recording: &mut Recording,
    ) -> Answer {
        let (mut breakpoints, mut told) = (vec![], vec![]);
        for one in asked {
            self.last_id += 1;
            let (id, mut answer) = (self.last_id, one.told.clone());
            let made = one.breakpoint(id, recording);
            answer["id"] = id.into();
            answer["verified"] = made.is_ok().into();
            match made {
                Ok(breakpoint) => breakpoints.push(breakpoint),
                Err(Refusal(fault)) => answer["message"] = fault.into(),
            }
            told.push(answer);
        }
        let answer = json!({"breakpoints": told});
        let set = Set {
            command,
            given: given.value().clone(),
            told,
            breakpoints,
        };
        self.sets.insert(name, set);
        Ok(answer)
    }
}

impl Asked<'_> {
    fn breakpoint(self, id: u64, recording: &mut Recording) -> Answer<Breakpoint> {
        let mut hits = self.hits.map_err(Refusal)?;
        if let Some(condition) = self
            .given
            .text("condition")?
            .filter(|it| !it.trim().is_empty())
        {
            let condition = Expression::read(condition, recording)?;
            hits.retain(|place| {
                recording.at(*place);
                condition.holds(recording)
            });
        }
        if let Some(count) = self
            .given
            .text("hitCondition")?
            .filter(|it| !it.trim().is_empty())
        {
            let count = Count::read(count)?;
            let mut number = 0;
            hits.retain(|_| {
                number += 1;
                count.holds(number)
            });
        }
        let log = self.given.text("logMessage")?.filter(|it| !it.is_empty());
        Ok(Breakpoint {
            id,
            reason: self.reason,
            hits,
            log: log.map(|text| Log::read(text, recording)).transpose()?,
        })
    }
}

/// Which hits of a breakpoint count: `3`, `>= 3` or `% 3`.
struct Count {
    sign: String,
    number: u64,
}

impl Count {
    fn read(text: &str) -> Answer<Count> {
        let digits = text.trim_start_matches(|c: char| !c.is_ascii_digit());
        let sign = text[..text.len() - digits.len()].trim().to_string();
        let number = digits.trim().parse().ok();
        let is_known = matches!(
            sign.as_str(),
            "" | "=" | "==" | ">" | ">=" | "<" | "<=" | "%"
        );
        match number.filter(|number| is_known && (*number > 0 || sign != "%")) {
            Some(number) => Ok(Count { sign, number }),
            None => Err(Refusal(format!(
                "`{text}` is no count of hits: write `3`, `>= 3` or `% 3`"
            ))),
        }
    }

    /// Whether the hit of this number, from 1 on, counts.
    fn holds(&self, number: u64) -> bool {
        match self.sign.as_str() {
            ">" => number > self.number,
            ">=" => number >= self.number,
            "<" => number < self.number,
            "<=" => number <= self.number,
            "%" => number % self.number == 0,
            _ => number == self.number,
        }
    }
}

/// Returns the place of a sorted list that is nearest before or after this one.
pub(crate) fn nearest(places: &[u32], place: u32, is_back: bool) -> Option<u32> {
    if is_back {
        places[..places.partition_point(|it| *it < place)]
            .last()
            .copied()
    } else {
        places
            .get(places.partition_point(|it| *it <= place))
            .copied()
    }
}

#[cfg(test)]
mod tests {
    use super::*;

    #[test]
    fn the_nearest_place_is_beside_the_place_itself() {
        let places = [2, 4, 8];
        let both = |place| {
            (
                nearest(&places, place, true),
                nearest(&places, place, false),
            )
        };
        assert_eq!(both(0), (None, Some(2)));
        assert_eq!(both(4), (Some(2), Some(8)));
        assert_eq!(both(5), (Some(4), Some(8)));
        assert_eq!(both(8), (Some(4), None));
    }

    #[test]
    fn hits_are_counted_from_one_on() {
        let counted = |text: &str| {
            let count = Count::read(text).unwrap();
            (1..=6)
                .filter(|number| count.holds(*number))
                .collect::<Vec<_>>()
        };
        assert_eq!(counted("3"), [3]);
        assert_eq!(counted("== 3"), [3]);
        assert_eq!(counted(">=5"), [5, 6]);
        assert_eq!(counted("> 5"), [6]);
        assert_eq!(counted("<2"), [1]);
        assert_eq!(counted("<= 2"), [1, 2]);
        assert_eq!(counted("% 2"), [2, 4, 6]);
        for wrong in ["", "x", "=> 3", "% 0", "3 or 4", "-1"] {
            assert!(Count::read(wrong).is_err(), "{wrong}");
        }
    }
}
