//! What the task of an actor did, as the names have it: when it was polled, where it waited, and
//! who woke it.

use crate::variables::variable;
use serde_json::Value;
use std::collections::BTreeMap;
use yovanelum::debugger::Walk;
use yovanelum::debugger::recorded::Recorded;

/// The key of the names that has what was seen of tasks.
const KEY: &str = "tasks_seen";

/// What was seen of the tasks of a test.
pub(crate) struct SeenTasks {
    seen: Value,
    // The indexes of the tasks of each actor.
    of_actor: BTreeMap<u64, Vec<usize>>,
}

/// A part of the time of a task: from the stamp of a call on, up to another one.
pub(crate) struct Stretch {
    pub(crate) from: u64,
    pub(crate) to: Option<u64>,
    pub(crate) text: String,
}

/// A poll, as a list of the names has it.
struct Poll<'a>(&'a Value);

impl Poll<'_> {
    fn number(&self, index: usize) -> Option<u64> {
        self.0.get(index)?.as_u64()
    }

    fn places(&self) -> impl Iterator<Item = u64> {
        let places = self.0.get(5).and_then(Value::as_array);
        let places = places.map_or(&[] as &[Value], Vec::as_slice);
        places.iter().filter_map(Value::as_u64)
    }

    /// Whether a call with this stamp may have been made in it.
    fn has(&self, stamp: u64) -> bool {
        let is_open = self.0.get(1).is_none_or(Value::is_null);
        let after = self.number(3).filter(|_| !is_open);
        self.number(2).is_some_and(|before| before < stamp)
            && after.is_none_or(|after| stamp <= after)
    }
}

fn list<'a>(value: &'a Value, key: &str) -> &'a [Value] {
    let items = value.get(key).and_then(Value::as_array);
    items.map_or(&[], Vec::as_slice)
}

/// Returns a text of the names without what an editor would take for more than a text.
fn plain(text: &str) -> String {
    let shown = |c: char| if c.is_control() { '\u{fffd}' } else { c };
    text.chars().map(shown).collect()
}

fn duration(microseconds: u64) -> String {
    match microseconds {
        0..1_000 => format!("{microseconds} us"),
        1_000..10_000_000 => format!("{} ms", microseconds / 1_000),
        _ => format!("{} s", microseconds / 1_000_000),
    }
}

impl SeenTasks {
    /// Reads them from the text of the names, if it has them.
    pub(crate) fn read(names: Option<&str>) -> SeenTasks {
        let names = names.filter(|text| text.contains(KEY));
        let read = names.and_then(|text| serde_json::from_str::<Value>(text).ok());
        let seen = read.map_or(Value::Null, |mut names| names[KEY].take());
        let mut of_actor: BTreeMap<u64, Vec<usize>> = BTreeMap::new();
        for (index, task) in list(&seen, "tasks").iter().enumerate() {
            if let Some(actor) = task["actor"].as_u64() {
                of_actor.entry(actor).or_default().push(index);
            }
        }
        SeenTasks { seen, of_actor }
    }

    /// Returns the task of an actor that made the call with this stamp, the innermost of several,
    /// or that alone is this actor.
    pub(crate) fn task_of(&self, actor: u32, stamp: u64) -> Option<usize> {
        let all = self.of_actor.get(&actor.into())?;
        let has_made = |index: &&usize| {
            let mut polls = self.polls(**index);
            polls.any(|poll| poll.has(stamp))
        };
        let caller = all.iter().rfind(has_made).copied();
        caller.or_else(|| (all.len() == 1).then(|| all[0]))
    }

    fn task(&self, index: usize) -> &Value {
        &list(&self.seen, "tasks")[index]
    }

    fn polls(&self, index: usize) -> impl Iterator<Item = Poll<'_>> {
        list(self.task(index), "polls").iter().map(Poll)
    }

    /// Returns the name of a task.
    pub(crate) fn name(&self, index: usize, names: &Recorded) -> String {
        let task = self.task(index);
        match task["actor"].as_u64() {
            Some(actor) => names.actor(actor as u32),
            None => plain(task["name"].as_str().unwrap_or_default()),
        }
    }

    /// Returns what a task did, in the order of time.
    pub(crate) fn stretches(&self, index: usize, names: &Recorded) -> Vec<Stretch> {
        let polls: Vec<_> = self.polls(index).collect();
        let is_over = self.task(index)["over"] == true;
        let mut stretches = vec![];
        for (at, poll) in polls.iter().enumerate() {
            let next = polls.get(at + 1);
            let end = poll.number(1);
            stretches.push(Stretch {
                from: poll.number(2).unwrap_or(0),
                to: poll.number(3).filter(|_| end.is_some()),
                text: format!("polled{}", self.lasting(poll.number(0), end)),
            });
            let is_over = is_over && next.is_none();
            if end.is_some() && !is_over {
                stretches.extend(self.pauses(poll, next, names));
            }
        }
        stretches
    }

    /// Returns how a task waited after a poll, and was ready then.
    fn pauses(&self, poll: &Poll<'_>, next: Option<&Poll<'_>>, names: &Recorded) -> Vec<Stretch> {
        let (begins, before) = (
            next.and_then(|it| it.number(0)),
            next.and_then(|it| it.number(2)),
        );
        let (woken_at, woken) = (poll.number(6), poll.number(7));
        let by = self.woken_by(poll, names);
        let waited = Stretch {
            from: poll.number(3).unwrap_or(0),
            to: woken.or(before),
            text: format!(
                "waited{}{}{by}",
                self.lasting(poll.number(1), woken_at.or(begins)),
                self.in_places(poll, next, names)
            ),
        };
        let ready = woken.map(|woken| Stretch {
            from: woken,
            to: before,
            text: format!("ready{}", self.lasting(woken_at, begins)),
        });
        [waited].into_iter().chain(ready).collect()
    }

    fn lasting(&self, from: Option<u64>, to: Option<u64>) -> String {
        let to = to.or(self.seen["now"].as_u64());
        match (from, to) {
            (Some(from), Some(to)) if self.seen["times"] == true => {
                format!(" {}", duration(to.saturating_sub(from)))
            }
            _ => String::new(),
        }
    }

    /// Returns where a task waited after a poll: the last place, if it waits there after its next
    /// poll too, else the one by which it was woken, else all.
    fn in_places(&self, poll: &Poll<'_>, next: Option<&Poll<'_>>, names: &Recorded) -> String {
        let first = poll.places().next();
        let stays =
            first.filter(|first| next.is_some_and(|next| next.places().any(|it| it == *first)));
        let kept = poll
            .number(10)
            .filter(|kept| poll.places().any(|it| it == *kept));
        let places: Vec<_> = match stays.or(kept) {
            Some(place) => vec![place],
            None => poll.places().collect(),
        };
        let texts = places.iter().map(|place| self.place(*place, names));
        let texts: Vec<_> = texts.filter(|text| !text.is_empty()).collect();
        match texts.as_slice() {
            [] => String::new(),
            texts => format!(" in {}", texts.join(" or ")),
        }
    }

    fn place(&self, index: u64, names: &Recorded) -> String {
        let place = &self.seen["places"][index as usize];
        let at = self.line(place, names);
        let within = place["function"]
            .as_str()
            .map(|function| format!("in {function}"));
        let what = place["what"].as_str().filter(|what| !what.is_empty());
        let parts = [what.map(str::to_string), at.or(within)];
        let parts: Vec<_> = parts.into_iter().flatten().collect();
        plain(&parts.join(", "))
    }

    fn line(&self, place: &Value, names: &Recorded) -> Option<String> {
        let location = place["location"].as_u64()?;
        let at = names.locations().get(location as usize)?;
        Some(format!("{}:{}", at.file, at.line))
    }

    /// Returns by whom a task was woken after a poll, and where.
    fn woken_by(&self, poll: &Poll<'_>, names: &Recorded) -> String {
        let Some(by) = poll.0.get(8).and_then(Value::as_str) else {
            return String::new();
        };
        let task = |index: &str| {
            index
                .parse()
                .ok()
                .filter(|it| *it < list(&self.seen, "tasks").len())
        };
        let who = match by.split_once(' ') {
            Some(("task", index)) => task(index).map(|index| self.name(index, names)),
            Some(("end", index)) => {
                task(index).map(|it| format!("the end of {}", self.name(it, names)))
            }
            Some(("thread", name)) => Some(format!("thread {}", plain(name))),
            _ => match by {
                "timer" => Some("a timer".to_string()),
                "runtime" => Some("the runtime".to_string()),
                _ => None,
            },
        };
        let place = poll
            .number(9)
            .map(|place| &self.seen["places"][place as usize]);
        let at = place.and_then(|place| self.line(place, names));
        let at = at.map_or(String::new(), |at| format!(", {}", plain(&at)));
        who.map_or(String::new(), |who| format!("; woken by {who}{at}"))
    }

    /// Returns the variables of the task of this index: its name, what it did when the call of a
    /// place was made, and all that was seen of it.
    pub(crate) fn variables(
        &self,
        index: usize,
        at: u32,
        walk: &Walk,
        names: &Recorded,
    ) -> Vec<Value> {
        let place_of = |stamp: u64| place_of(walk, stamp);
        let since = |stamp: u64| match place_of(stamp) {
            0 => "the start".to_string(),
            place => format!("call {place}"),
        };
        let stretches = self.stretches(index, names);
        let now = stretches.iter().find(|it| {
            let to = it.to.map(place_of);
            place_of(it.from) <= at && to.is_none_or(|to| at <= to)
        });
        let mut variables = vec![variable("task", self.name(index, names))];
        variables.extend(now.map(|it| variable("now", it.text.clone())));
        variables.extend(stretches.iter().map(|it| {
            let to = it
                .to
                .map_or(String::new(), |to| format!(" to {}", since(to)));
            variable(format!("from {}{to}", since(it.from)), it.text.clone())
        }));
        variables
    }
}

/// Returns the last place with a stamp up to this one.
fn place_of(walk: &Walk, stamp: u64) -> u32 {
    let (mut least, mut most) = (0, walk.len());
    while least < most {
        let middle = (least + most).div_ceil(2);
        match walk.entry(middle) {
            Some(entry) if entry.stamp() <= stamp => least = middle,
            _ => most = middle - 1,
        }
    }
    least as u32
}
