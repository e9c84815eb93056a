//! What is typed or watched: the commands of the console of `ttd`, and expressions.

use crate::arguments::Arguments;
use crate::expression::{Entity, Expression, thing_of};
use crate::moves::Debuggee;
use crate::shown::text_of;
use crate::variables::Group;
use crate::{Answer, Refusal, state_json};
use serde_json::{Value, json};
use yovanelum::debugger::Condition;
use yovanelum::debugger::recorded::NamedCondition;

/// The words of the console.
const WORDS: [&str; 26] = [
    "back", "forward", "goto", "start", "end", "step", "state", "json", "list", "rback",
    "rforward", "hits", "why", "native", "help", "quit", "actor", "channel", "reply", "lagging",
    "unread", "unseen", "version", "closed", "queue", "value",
];

/// How many entries `list` prints.
const MOST_LISTED: u32 = 10_000;

const HELP: &str = "\
back [N], forward [N], goto N, start, end   go to another call
rback CONDITION, rforward CONDITION         go to the nearest call that meets it
hits CONDITION                              count these up to here
step, state, state json, list, why          print the call, the channels, all calls, the report
native                                      run the test again, and stop before this call in a native debugger
quit                                        end the session
An expression prints its value: audit, audit.lag, orders.queued, reply, call, actor, number
Conditions: lagging R, unread R N, unseen R, closed C, queue C N, version C N, actor A, channel C, reply WORD";

impl Debuggee {
    pub(crate) fn evaluate(&mut self, given: Arguments<'_>) -> Answer {
        let text = given.need_text("expression")?.trim();
        if given.text("context")? == Some("repl") {
            if let Some(answer) = self.command(text)? {
                return Ok(json!({"result": answer, "variablesReference": 0}));
            }
        }
        let at = match given.number("frameId")?.filter(|id| *id > 0) {
            Some(id) => self.frame_of(id)?.at,
            None => self.place,
        };
        self.recording.at(at);
        match thing_of(text.trim_matches('`'), &self.recording) {
            Some(thing) => Ok(self.shown_thing(thing, at)),
            None => self.value_of(text, at),
        }
    }

    fn value_of(&self, text: &str, at: u32) -> Answer {
        let expression = Expression::read(text, &self.recording)?;
        let value = expression.value(&self.recording);
        let value =
            value.ok_or_else(|| Refusal(format!("there is no `{text}` {}", self.after(at))))?;
        Ok(json!({"result": value.to_string(), "variablesReference": 0}))
    }

    fn shown_thing(&mut self, thing: Entity, at: u32) -> Value {
        let text = text_of(thing, &self.recording);
        let group = match thing {
            Entity::Channel(channel) => self.numbered_group(Group::Channel(channel, at)),
            Entity::Receiver(channel, handle) => {
                self.numbered_group(Group::Receiver(channel, handle, at))
            }
            Entity::Actor(_) => 0,
        };
        json!({"result": text, "variablesReference": group})
    }

    /// Runs a command, and returns what it prints, or `None` if the text is none.
    fn command(&mut self, text: &str) -> Answer<Option<String>> {
        let (word, rest) = text.split_once(' ').unwrap_or((text, ""));
        let rest = rest.trim();
        let last = self.recording.len();
        if word.is_empty() || word.starts_with('#') {
            return Ok(Some(String::new()));
        }
        let answer = match (word, rest) {
            ("back", _) => self.moved(self.place.checked_sub(steps(rest)?)),
            ("forward", _) => self.moved(self.place.checked_add(steps(rest)?)),
            ("goto", _) => self.moved(rest.parse().ok()),
            ("start", "") => self.moved(Some(0)),
            ("end", "") => self.moved(Some(last)),
            ("step", "") => self.entry_line(self.place).unwrap_or("no step".to_string()),
            ("state", "") => self
                .recording
                .at(self.place)
                .state()
                .to_string()
                .trim_end()
                .to_string(),
            ("state", "json") => state_json::line(self.recording.at(self.place)),
            ("list", "") => self.listed(),
            ("rback" | "rforward", _) => self.searched(rest, word == "rback")?,
            ("hits", _) => {
                let condition = self.condition(rest)?;
                let hits = self.recording.at(self.place).hits_so_far(&condition);
                format!("{hits} of `{condition}` up to call {}", self.place)
            }
            ("why", "") => self.recording.names.report().trim_end().to_string(),
            ("native", "") => {
                let call = self.call_at(self.place)?;
                self.wanted = Some(call);
                format!("the test is built, to stop before call {call} in a native debugger")
            }
            ("help", "") => HELP.to_string(),
            ("quit", "") => {
                self.has_quit = true;
                self.events.push(("terminated", Value::Null));
                String::new()
            }
            _ => return Ok(None),
        };
        Ok(Some(answer))
    }

    fn place_line(&self) -> String {
        format!("place {} of {}", self.place, self.recording.len())
    }

    /// Goes to a place if the run has it.
    fn moved(&mut self, place: Option<u32>) -> String {
        match place.filter(|place| *place <= self.recording.len()) {
            Some(place) => {
                self.jump(place);
                self.place_line()
            }
            None => format!("out of range, {}", self.place_line()),
        }
    }

    fn searched(&mut self, condition: &str, is_back: bool) -> Answer<String> {
        let condition = self.condition(condition)?;
        let walk = self.recording.at(self.place);
        let found = if is_back {
            walk.find_back(&condition)
        } else {
            walk.find_forward(&condition)
        };
        let Some(hit) = found else {
            return Ok(format!("no hit, {}", self.place_line()));
        };
        self.jump(hit as u32);
        Ok(format!("hit {hit} of {}", self.recording.len()))
    }

    /// Reads a condition, in which names may stand for numbers.
    fn condition(&self, text: &str) -> Answer<Condition> {
        let read = text.parse().ok();
        let condition = read.and_then(|it: NamedCondition| self.recording.things.condition(&it));
        condition.ok_or_else(|| Refusal(format!("there is no condition `{text}`: see `help`")))
    }

    fn entry_line(&self, place: u32) -> Option<String> {
        let entry = self.recording.entry(place)?;
        Some(format!("#{place} {entry}"))
    }

    fn listed(&self) -> String {
        let shown = self.recording.len().min(MOST_LISTED);
        let mut lines: Vec<_> = (1..=shown)
            .filter_map(|place| self.entry_line(place))
            .collect();
        let left = self.recording.len() - shown;
        if left > 0 {
            lines.push(format!("and {left} more"));
        }
        lines.join("\n")
    }

    /// Completes the word before the cursor.
    pub(crate) fn completions(&self, given: Arguments<'_>) -> Answer {
        let text = given.need_text("text")?;
        let column = given
            .need_number("column")?
            .saturating_sub(self.bases.column);
        let before: String = text
            .chars()
            .take(usize::try_from(column).unwrap_or(usize::MAX))
            .collect();
        let part = before.rsplit(' ').next().unwrap_or_default();
        let names = self.recording.things.names();
        let words = WORDS
            .into_iter()
            .chain(names)
            .filter(|word| word.starts_with(part));
        let targets = words
            .take(100)
            .map(|word| json!({"label": word, "length": part.chars().count()}));
        Ok(json!({"targets": targets.collect::<Vec<_>>()}))
    }
}

/// Returns how many places a command goes, or 1.
fn steps(text: &str) -> Answer<u32> {
    match text {
        "" => Ok(1),
        // Too many are out of range.
        text if text.chars().all(|c| c.is_ascii_digit()) => Ok(text.parse().unwrap_or(u32::MAX)),
        text => Err(Refusal(format!("`{text}` is no number"))),
    }
}
