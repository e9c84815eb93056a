//! Moves from place to place: each ends with a `stopped` event.

use crate::arguments::Arguments;
use crate::breakpoints::{Breakpoint, Breakpoints, nearest};
use crate::numbered::Numbered;
use crate::recording::Recording;
use crate::shown::Frame;
use crate::sources::Bases;
use crate::variables::Group;
use crate::{Answer, Refusal};
use serde_json::{Value, json};

/// The target of a step in that is the real call, in a native debugger. No place has this number.
pub(crate) const REAL_CALL: u64 = i32::MAX as u64;

/// How many lines log points print in one move.
const MOST_LINES: usize = 10_000;

/// A run that is debugged: the place, the breakpoints, and what the client was shown at the last
/// stop.
pub(crate) struct Debuggee {
    pub(crate) recording: Recording,
    pub(crate) bases: Bases,
    pub(crate) place: u32,
    /// The actor whose call led here.
    pub(crate) actor: u32,
    pub(crate) breakpoints: Breakpoints,
    /// The frames and groups of variables of this stop. A move forgets them.
    pub(crate) frames: Numbered<Frame>,
    pub(crate) groups: Numbered<Group>,
    /// Whether the client has been told of the first stop.
    pub(crate) has_begun: bool,
    /// Whether the user has ended it.
    pub(crate) has_quit: bool,
    /// Whether the client starts other debuggers.
    pub(crate) has_debuggers: bool,
    /// The call before which a native debugger is wanted.
    pub(crate) wanted: Option<u32>,
    /// What is sent after the response.
    pub(crate) events: Vec<(&'static str, Value)>,
}

/// What is left of a run that was debugged: its breakpoints, and the last numbers that its client
/// was given.
#[derive(Default)]
pub(crate) struct Left {
    pub(crate) breakpoints: Breakpoints,
    frames: usize,
    groups: usize,
}

/// Why a move stopped.
struct Stop {
    reason: &'static str,
    text: Option<String>,
    breakpoints: Vec<u64>,
}

impl Stop {
    fn of(reason: &'static str) -> Stop {
        Stop {
            reason,
            text: None,
            breakpoints: vec![],
        }
    }

    fn saying(reason: &'static str, text: &str) -> Stop {
        Stop {
            text: Some(text.to_string()),
            ..Stop::of(reason)
        }
    }
}

impl Debuggee {
    /// Opens a recording at a place. Its client may remember what this is left of.
    pub(crate) fn new(recording: Recording, bases: Bases, place: u32, left: &Left) -> Debuggee {
        let actor = recording.entry(place).map(|entry| entry.actor());
        Debuggee {
            actor: actor
                .or_else(|| recording.actors().first().copied())
                .unwrap_or(0),
            place,
            recording,
            bases,
            breakpoints: Breakpoints::default(),
            frames: Numbered::above(left.frames),
            groups: Numbered::above(left.groups),
            has_begun: false,
            has_quit: false,
            has_debuggers: false,
            wanted: None,
            events: vec![],
        }
    }

    /// Returns what is left of it.
    pub(crate) fn left(self) -> Left {
        Left {
            breakpoints: self.breakpoints,
            frames: self.frames.last(),
            groups: self.groups.last(),
        }
    }

    /// Tells of the first stop.
    pub(crate) fn begin(&mut self) {
        self.has_begun = true;
        for actor in self.recording.actors() {
            let thread = thread_of(actor);
            self.events
                .push(("thread", json!({"reason": "started", "threadId": thread})));
        }
        self.stop(Stop::of("entry"));
    }

    /// Sets breakpoints again that were set in another recording, and tells which have changed.
    pub(crate) fn renew_breakpoints(&mut self, before: Breakpoints) {
        let (breakpoints, changed) = Breakpoints::renewed(before, self.bases, &mut self.recording);
        self.breakpoints = breakpoints;
        let changed = changed.into_iter();
        self.events.extend(changed.map(|breakpoint| {
            let body = json!({"reason": "changed", "breakpoint": breakpoint});
            ("breakpoint", body)
        }));
    }

    fn stop(&mut self, stop: Stop) {
        self.frames.clear();
        self.groups.clear();
        if let Some(entry) = self.recording.entry(self.place) {
            self.actor = entry.actor();
        }
        let mut body = json!({
            "reason": stop.reason,
            "threadId": thread_of(self.actor),
            "allThreadsStopped": true,
        });
        if !stop.breakpoints.is_empty() {
            body["hitBreakpointIds"] = stop.breakpoints.into();
        }
        if let Some(text) = stop
            .text
            .or_else(|| self.exception().filter(|_| stop.reason == "exception"))
        {
            body["description"] = text.lines().next().unwrap_or_default().into();
            body["text"] = text.into();
        }
        self.events.push(("stopped", body));
    }

    fn go(&mut self, place: u32, stop: Stop) {
        self.place = place;
        self.stop(stop);
    }

    /// Goes to a place that the client chose.
    pub(crate) fn jump(&mut self, place: u32) {
        self.go(place, Stop::of("goto"));
    }

    pub(crate) fn prints(&mut self, category: &str, text: &str) {
        self.events.push((
            "output",
            json!({"category": category, "output": format!("{text}\n")}),
        ));
    }

    /// Goes to the thread's own next or last call. A granularity of instructions is one place,
    /// whoever calls.
    pub(crate) fn step(&mut self, given: Arguments<'_>, is_back: bool) -> Answer {
        let actor = self.actor_of(given.need_number("threadId")?)?;
        let one = if is_back {
            Some(self.place)
                .filter(|place| *place > self.recording.first())
                .map(|place| place - 1)
        } else {
            Some(self.place + 1).filter(|place| *place <= self.recording.len())
        };
        let own = || nearest(self.recording.places_of_actor(actor), self.place, is_back);
        let found = match given.text("granularity")? {
            Some("instruction") => one,
            _ => own(),
        };
        match found {
            Some(place) => self.go(place, Stop::of("step")),
            None => self.end(is_back),
        }
        Ok(Value::Null)
    }

    /// Stops at the end of the run in a direction. The session goes on, so that the user can go
    /// back from there.
    fn end(&mut self, is_back: bool) {
        let first = self.recording.first();
        if is_back && first > 0 {
            let said = "the beginning of the window: what was called before isn't known";
            self.go(first, Stop::saying("step", said))
        } else if is_back {
            self.go(0, Stop::saying("step", "the start of the run"))
        } else {
            self.go(
                self.recording.len(),
                Stop::saying("step", "the end of the run"),
            )
        }
    }

    /// Follows the value of the call: from a send to the receive of what it sent, and from a
    /// receive to its send. Without one, one place on.
    pub(crate) fn step_in(&mut self, given: Arguments<'_>) -> Answer {
        self.actor_of(given.need_number("threadId")?)?;
        let chosen = given.number("targetId")?;
        if chosen == Some(REAL_CALL) {
            self.wanted = Some(self.call_at(self.place)?);
            self.stop(Stop::of("step"));
            return Ok(Value::Null);
        }
        let place = match chosen {
            Some(id) => Some(self.place_of_id(id)?),
            None => self
                .targets_of(self.place)
                .first()
                .map(|target| target.place),
        };
        match place {
            Some(place) => self.go(place, Stop::of("step")),
            None => return self.step_out(given),
        }
        Ok(Value::Null)
    }

    /// Goes to the next call of any actor.
    pub(crate) fn step_out(&mut self, given: Arguments<'_>) -> Answer {
        self.actor_of(given.need_number("threadId")?)?;
        if self.place < self.recording.len() {
            self.go(self.place + 1, Stop::of("step"))
        } else {
            self.end(false)
        }
        Ok(Value::Null)
    }

    /// Goes to the nearest place of a breakpoint. The log points on the way print their lines.
    pub(crate) fn run(&mut self, given: Arguments<'_>, is_back: bool) -> Answer {
        let actor = self.actor_of(given.need_number("threadId")?)?;
        let is_single = given.flag("singleThread")?.unwrap_or(false);
        let only = is_single.then_some(actor);
        let stops = self.breakpoints.all().filter(|it| it.log.is_none());
        let hits = stops.filter_map(|it| Some((self.next_hit(it, only, is_back)?, it)));
        let hits: Vec<_> = hits.collect();
        let places = hits.iter().map(|(place, _)| *place);
        let found = if is_back { places.max() } else { places.min() };
        let stop = found.map(|found| {
            let here = hits.iter().filter(|(place, _)| *place == found);
            let breakpoints: Vec<_> = here.clone().map(|(_, it)| it.id).collect();
            // What goes wrong there says more than a breakpoint of the user's.
            let mut reasons = here.map(|(_, it)| it.reason);
            let first = reasons.clone().next().unwrap_or("breakpoint");
            Stop {
                reason: reasons
                    .find(|reason| *reason == "exception")
                    .unwrap_or(first),
                text: None,
                breakpoints,
            }
        });
        let last = if is_back {
            self.recording.first()
        } else {
            self.recording.len()
        };
        self.print_logs(found.unwrap_or(last), is_back);
        match (found, stop) {
            (Some(place), Some(stop)) => self.go(place, stop),
            _ => self.end(is_back),
        }
        // A reverse has no body.
        Ok(if is_back {
            Value::Null
        } else {
            json!({"allThreadsContinued": true})
        })
    }

    /// Returns the nearest place of a breakpoint, of one actor if it is given.
    fn next_hit(&self, breakpoint: &Breakpoint, only: Option<u32>, is_back: bool) -> Option<u32> {
        let mut place = nearest(&breakpoint.hits, self.place, is_back)?;
        let is_its = |place| match (only, self.recording.entry(place)) {
            (Some(actor), Some(entry)) => entry.actor() == actor,
            _ => true,
        };
        while !is_its(place) {
            place = nearest(&breakpoint.hits, place, is_back)?;
        }
        Some(place)
    }

    /// Prints the lines of log points from the place to another one, which is among them.
    fn print_logs(&mut self, to: u32, is_back: bool) {
        let mut hits = vec![];
        for breakpoint in self.breakpoints.all().filter(|it| it.log.is_some()) {
            let is_between = |place: &&u32| {
                if is_back {
                    **place < self.place && **place >= to
                } else {
                    **place > self.place && **place <= to
                }
            };
            hits.extend(
                breakpoint
                    .hits
                    .iter()
                    .filter(is_between)
                    .map(|place| (*place, breakpoint.id)),
            );
        }
        hits.sort_unstable();
        if is_back {
            hits.reverse();
        }
        let left = hits.len().saturating_sub(MOST_LINES);
        for (place, id) in hits.into_iter().take(MOST_LINES) {
            self.print_log(place, id);
        }
        if left > 0 {
            self.prints(
                "important",
                &format!("and {left} more lines, which aren't printed"),
            );
        }
    }

    fn print_log(&mut self, place: u32, id: u64) {
        self.recording.at(place);
        let mut all = self.breakpoints.all();
        let Some(log) = all.find(|it| it.id == id).and_then(|it| it.log.as_ref()) else {
            return;
        };
        let text = format!("{}\n", log.text(&self.recording));
        let mut body = json!({"category": "stdout", "output": text});
        self.put_location(&mut body, self.recording.location(place));
        self.events.push(("output", body));
    }

    /// Lists the calls that were made at a line, as places to go to.
    pub(crate) fn goto_targets(&mut self, given: Arguments<'_>) -> Answer {
        let source = given.object("source")?;
        let line = self.bases.line(given.need_number("line")?);
        let file = self.recording.file_of(source)?;
        let file = file.ok_or_else(|| Refusal::new("no call of the run was made in this file"))?;
        let mut places = self.recording.places_of_line(&file, line, None);
        // The nearest of many.
        let here = self.place;
        places.sort_by_key(|place| place.abs_diff(here));
        places.truncate(20);
        places.sort_unstable();
        let targets = places.into_iter().map(|place| {
            let label = format!("call {place}: {}", self.call_text(place));
            json!({"id": place, "label": label, "line": self.bases.shown_line(line.into())})
        });
        Ok(json!({"targets": targets.collect::<Vec<_>>()}))
    }

    pub(crate) fn goto(&mut self, given: Arguments<'_>) -> Answer {
        self.actor_of(given.need_number("threadId")?)?;
        let place = self.place_of_id(given.need_number("targetId")?)?;
        self.jump(place);
        Ok(Value::Null)
    }

    /// Wants a native debugger before the call of a frame, or before that of the place.
    pub(crate) fn debug_real_call(&mut self, given: Arguments<'_>) -> Answer {
        let place = match given.number("frameId")?.filter(|id| *id > 0) {
            Some(id) => self.frame_of(id)?.call.unwrap_or(0),
            None => self.place,
        };
        self.wanted = Some(self.call_at(place)?);
        Ok(Value::Null)
    }

    /// Returns the number of the call that led to a place.
    pub(crate) fn call_at(&self, place: u32) -> Answer<u32> {
        let call = Some(place).filter(|place| *place > self.recording.first());
        call.ok_or_else(|| Refusal::new("no call was made yet"))
    }

    pub(crate) fn restart_frame(&mut self, given: Arguments<'_>) -> Answer {
        let frame = self.frame_of(given.need_number("frameId")?)?;
        self.go(frame.at, Stop::of("restart"));
        Ok(Value::Null)
    }

    fn place_of_id(&self, id: u64) -> Answer<u32> {
        let place = u32::try_from(id)
            .ok()
            .filter(|place| *place <= self.recording.len());
        place.ok_or_else(|| Refusal::new("there is no such target"))
    }

    /// Returns the actor of a thread.
    pub(crate) fn actor_of(&self, thread: u64) -> Answer<u32> {
        let actor = thread
            .checked_sub(1)
            .and_then(|actor| u32::try_from(actor).ok());
        let known = actor.filter(|actor| self.recording.actors().contains(actor));
        known.ok_or_else(|| Refusal(format!("there is no thread {thread}")))
    }
}

/// The number of an actor's thread. Some clients have no thread 0.
pub(crate) fn thread_of(actor: u32) -> u64 {
    u64::from(actor) + 1
}
