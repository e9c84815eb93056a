//! Breakpoints of lines, of functions, and of data.

use super::{Asked, Breakpoints};
use crate::arguments::Arguments;
use crate::expression::{Entity, thing_of};
use crate::recording::{Places, Recording};
use crate::sources::Bases;
use crate::{Answer, Refusal};
use serde_json::{Value, json};
use yovanelum::debugger::Condition;
use yovanelum::debugger::recorded::NamedCondition;

/// The words of conditions on calls, which aren't of data.
const OF_CALLS: [&str; 3] = ["actor", "channel", "reply"];

impl Breakpoints {
    /// Sets those of a source. A line without calls moves to the next one that has some.
    pub(crate) fn set_of_source(
        &mut self,
        given: Arguments<'_>,
        bases: Bases,
        recording: &mut Recording,
    ) -> Answer {
        let source = given.object("source")?;
        let file = recording.file_of(source)?;
        let mut asked = vec![];
        for breakpoint in given.objects("breakpoints")? {
            let line = bases.line(breakpoint.need_number("line")?);
            let column = breakpoint
                .number("column")?
                .map(|column| bases.column(column));
            let found = match &file {
                Some(file) => line_with_calls(recording, file, line, column),
                None => Err("no call of the run was made in this file".to_string()),
            };
            let shown = found.as_ref().map_or(line, |(line, _)| *line);
            asked.push(Asked {
                given: breakpoint,
                reason: "breakpoint",
                hits: found.map(|(_, places)| places),
                told: json!({"line": bases.shown_line(shown.into()), "source": source.value()}),
            });
        }
        let name = match source.text("path")? {
            Some(path) => path.to_string(),
            None => file.unwrap_or_default(),
        };
        let set = (format!("source {name}"), "setBreakpoints");
        self.replace(set, given, asked, recording)
    }

    /// Sets those of functions: `orders.send`, `audit.recv` or `send`.
    pub(crate) fn set_functions(
        &mut self,
        given: Arguments<'_>,
        recording: &mut Recording,
    ) -> Answer {
        let mut asked = vec![];
        for breakpoint in given.objects("breakpoints")? {
            asked.push(Asked {
                given: breakpoint,
                reason: "function breakpoint",
                hits: places_of_function(breakpoint.need_text("name")?, recording),
                told: json!({}),
            });
        }
        let set = ("functions".to_string(), "setFunctionBreakpoints");
        self.replace(set, given, asked, recording)
    }

    /// Sets those of data: each is a condition of the console. A last word `N` stands for a number
    /// that the client gives as the condition.
    pub(crate) fn set_data(&mut self, all: Arguments<'_>, recording: &mut Recording) -> Answer {
        let mut asked = vec![];
        let nothing = Value::Null;
        for breakpoint in all.objects("breakpoints")? {
            let id = breakpoint.need_text("dataId")?;
            let number = breakpoint.text("condition")?;
            let (id, given) = match id.strip_suffix('N') {
                Some(start) => (
                    format!("{start}{}", number_in(number)),
                    Arguments::of(&nothing)?,
                ),
                None => (id.to_string(), breakpoint),
            };
            asked.push(Asked {
                given,
                reason: "data breakpoint",
                hits: condition_of(&id, recording).map(|condition| hits_of(&condition, recording)),
                told: json!({}),
            });
        }
        let set = ("data".to_string(), "setDataBreakpoints");
        self.replace(set, all, asked, recording)
    }
}

/// Returns the first line from this one on that has calls, with their places; and of this column,
/// if calls of the line have it.
fn line_with_calls(
    recording: &Recording,
    file: &str,
    line: u32,
    column: Option<u32>,
) -> Result<(u32, Places), String> {
    let here = recording.locations_in(file);
    let found = here.iter().find(|(at, ..)| *at >= line);
    let (found, ..) = found.ok_or("no call of the run was made at this line or below it")?;
    let has_column = here
        .iter()
        .any(|(at, col, _)| at == found && Some(*col) == column);
    let column = column.filter(|_| has_column);
    Ok((*found, recording.places_of_line(file, *found, column)))
}

fn places_of_function(name: &str, recording: &Recording) -> Result<Places, String> {
    let name = name.trim().trim_end_matches("()");
    let (head, method) = match name.rsplit_once('.') {
        Some((head, method)) => (Some(head), method),
        None => (None, name),
    };
    let meant = head.map(|head| meant_by(head, recording));
    if let (Some([]), Some(head)) = (meant.as_deref(), head) {
        return Err(format!("there is no `{head}` in this run"));
    }
    let places = recording.places_where(|place, entry| {
        let is_of = |thing: &Entity| match *thing {
            Entity::Actor(actor) => entry.actor() == actor,
            Entity::Channel(channel) => entry.channel() == channel,
            Entity::Receiver(channel, handle) => {
                (entry.channel(), entry.handle()) == (channel, handle)
            }
        };
        let is_its = meant.as_ref().is_none_or(|all| all.iter().any(is_of));
        is_its && recording.names.method(place.into(), entry) == method
    });
    if places.is_empty() {
        Err(format!("the run has no call of `{name}`"))
    } else {
        Ok(places)
    }
}

/// Returns whose calls, or the calls on what, a function's name is of: of the actor and of the
/// channel that have the name, since receivers are called by their readers; or else of what it
/// stands for.
fn meant_by(head: &str, recording: &Recording) -> Vec<Entity> {
    let actor = recording.things.actor(head).map(Entity::Actor);
    let mut channels = 0..recording.walk().channels();
    let channel = channels.find(|it| recording.names.channel(*it) == head);
    let mut meant: Vec<_> = actor.into_iter().collect();
    meant.extend(channel.map(Entity::Channel));
    if meant.is_empty() {
        meant.extend(thing_of(head, recording));
    }
    meant
}

/// Returns the condition that data are watched by, if the run has these data.
fn condition_of(id: &str, recording: &Recording) -> Result<Condition, String> {
    let read: Option<NamedCondition> = id.parse().ok();
    let is_of_call = |word| OF_CALLS.contains(&word);
    let read = read.filter(|_| !id.split(' ').next().is_some_and(is_of_call));
    let read = read.ok_or_else(|| format!("`{id}` can't be watched"))?;
    let is_there = Some(&read).filter(|it| recording.things.has_subject_of(it));
    let condition = is_there.and_then(|it| recording.things.condition(it));
    condition.ok_or_else(|| format!("this run has nothing that `{id}` is of"))
}

/// Returns the places at which a condition becomes true.
fn hits_of(condition: &Condition, recording: &mut Recording) -> Places {
    let walk = recording.at(0);
    std::iter::from_fn(|| walk.find_forward(condition).map(|place| place as u32)).collect()
}

/// Returns the number in the text of a condition, or 1.
fn number_in(condition: Option<&str>) -> u64 {
    let digits = condition
        .unwrap_or_default()
        .trim_matches(|c: char| !c.is_ascii_digit());
    digits.parse().unwrap_or(1)
}

impl Recording {
    /// Returns the file of a source that the client names, if the run has calls in it.
    pub(crate) fn file_of(&self, source: Arguments<'_>) -> Answer<Option<String>> {
        let by_reference = source
            .number("sourceReference")?
            .filter(|reference| *reference > 0);
        let by_reference = by_reference.and_then(|it| self.sources.file_of_reference(it));
        let by_path = match (by_reference, source.text("path")?) {
            (None, Some(path)) => self.sources.file_of(path),
            (found, _) => found,
        };
        Ok(by_path.map(str::to_string))
    }

    /// The lines of a source that have calls, for `breakpointLocations`.
    pub(crate) fn breakpoint_locations(&self, given: Arguments<'_>, bases: Bases) -> Answer {
        let source = given.object("source")?;
        let first = given.need_number("line")?;
        let last = given.number("endLine")?.unwrap_or(first);
        let (first, last) = (bases.line(first), bases.line(last));
        let file = self.file_of(source)?;
        let file = file.ok_or_else(|| Refusal::new("no call of the run was made in this file"))?;
        let here = self.locations_in(&file).into_iter();
        let here = here.filter(|(line, ..)| (first..=last).contains(line));
        let shown = here.map(|(line, column, _)| json!({"line": bases.shown_line(line.into()), "column": bases.shown_column(column.into())}));
        Ok(json!({"breakpoints": shown.collect::<Vec<_>>()}))
    }
}
