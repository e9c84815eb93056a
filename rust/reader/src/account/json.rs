//! The account as JSON, which `yovanelum why --json` prints and a file of names has.

use super::rest::KindCount;
use super::window::WindowSaid;
use super::{Account, Fact, FactStep, Failed, LeftSaid, PendingTask, RaceSaid, Rest, WaitAtEnd};
use std::fmt::Write;
use yovanelum_record::journal::{Loss, LossEnd};
use yovanelum_record::listed::{IntoList, PushAll};
use yovanelum_record::sidecar::{Json, SourceLocation, push_string};

/// The version of the form.
const VERSION: u64 = 1;

impl Account {
    /// Returns the object, without an end of its last line. Each fact, each wait and each loss is
    /// on a line of its own.
    pub fn to_json(&self) -> String {
        self.json(true)
    }

    /// Returns the object without its list of losses, which the page finds in the journal itself:
    /// that of a long run is longer than the journal.
    pub fn to_json_for_page(&self) -> String {
        self.json(false)
    }

    fn json(&self, has_losses: bool) -> String {
        let mut out = format!("{{\n  \"version\": {VERSION}");
        push_member(&mut out, "calls", &Json::number(self.calls));
        push_member(&mut out, "channels", &Json::number(self.channels));
        if let Some(window) = &self.window {
            push_window(&mut out, window);
        }
        if let Some(left) = &self.left {
            push_member(&mut out, "replay", &replay(left));
        }
        if let Some(race) = &self.race {
            push_member(&mut out, "race", &race_of(race));
        }
        let unknown = self.unknown.iter().map(|line| Json::text(line));
        push_member(&mut out, "unknown", &Json::List(unknown.listed()));
        push_member(
            &mut out,
            "failed",
            &self.failed.as_ref().map_or(Json::Null, failed),
        );
        push_lines(&mut out, "facts", self.facts.iter().map(fact));
        push_member(&mut out, "rest", &rest(&self.rest));
        push_member(&mut out, "nothing", &optional_text(self.nothing.as_deref()));
        push_lines(&mut out, "waiting", self.waiting.iter().map(wait));
        if !self.pending.is_empty() {
            push_lines(&mut out, "tasks", self.pending.iter().map(pending));
        }
        if has_losses {
            push_lines(&mut out, "losses", self.losses.iter().map(loss));
        }
        push_member(&mut out, "failure", &optional_number(self.failure));
        push_member(&mut out, "look", &Json::number(self.look));
        out.push_str("\n}");
        out
    }
}

fn push_member(out: &mut String, key: &str, value: &Json) {
    let _ = write!(out, ",\n  \"{key}\": ");
    value.push(out);
}

/// Appends the window as the names have it, and what is said of it.
fn push_window(out: &mut String, said: &WindowSaid) {
    out.push_str(",\n  \"window\": {");
    said.window.push_members(out);
    out.push_str(", \"text\": ");
    push_string(out, &said.text);
    out.push('}');
}

/// Appends a list with each item on a line of its own.
fn push_lines(out: &mut String, key: &str, items: impl Iterator<Item = Json>) {
    let _ = write!(out, ",\n  \"{key}\": [");
    let mut is_first = true;
    for item in items {
        out.push_str(if is_first { "\n    " } else { ",\n    " });
        is_first = false;
        item.push(out);
    }
    out.push_str(if is_first { "]" } else { "\n  ]" });
}

fn optional_text(text: Option<&str>) -> Json {
    text.map_or(Json::Null, Json::text)
}

fn optional_number(number: Option<u64>) -> Json {
    number.map_or(Json::Null, Json::number)
}

fn location_of(location: Option<&SourceLocation>) -> Json {
    location.map_or(Json::Null, |location| {
        Json::List(vec![
            Json::text(&location.file),
            Json::number(location.line),
            Json::number(location.column),
        ])
    })
}

fn replay(left: &LeftSaid) -> Json {
    Json::object(vec![
        ("file", Json::text(&left.file)),
        ("place", optional_number(left.place)),
        ("text", Json::text(&left.text)),
    ])
}

fn race_of(race: &RaceSaid) -> Json {
    let [first, then] = &race.steps;
    let step = |(text, place): &(String, Option<u64>)| {
        Json::object(vec![
            ("text", Json::text(text)),
            ("place", optional_number(*place)),
        ])
    };
    Json::object(vec![
        ("text", Json::text(&race.text)),
        ("first", step(first)),
        ("then", step(then)),
    ])
}

fn failed(failed: &Failed) -> Json {
    Json::object(vec![
        ("place", Json::number(failed.place)),
        ("name", Json::text(&failed.name)),
        ("message", Json::text(&failed.message)),
        ("location", location_of(failed.location.as_ref())),
        ("call", optional_number(failed.last_call)),
        ("text", Json::text(&failed.text)),
    ])
}

fn fact(fact: &Fact) -> Json {
    let mut members = vec![
        ("kind", Json::text(fact.kind)),
        ("order", Json::number(fact.order)),
    ];
    members.push_all(fact.members.iter().cloned());
    let places = fact.steps.iter().enumerate();
    let places = places.map(|(index, step)| place(index, step));
    members.push(("places", Json::List(places.listed())));
    if !fact.late.is_empty() {
        members.push(("late", texts(&fact.late)));
    }
    members.push(("text", texts(&fact.text())));
    Json::object(members)
}

fn texts(texts: &[String]) -> Json {
    Json::List(texts.iter().map(|text| Json::text(text)).listed())
}

/// A step of a fact, with the index of its line.
fn place(index: usize, step: &FactStep) -> Json {
    let mut members = vec![
        ("place", Json::number(step.place)),
        ("role", Json::text(step.role.word())),
        ("line", Json::number(index + 1)),
        ("actor", optional_number(step.actor)),
        ("location", location_of(step.location.as_ref())),
    ];
    if let Some(time) = step.time {
        members.push(("time", Json::text(&time.iso())));
    }
    members.push_all(step.stamp.map(|stamp| ("stamp", Json::number(stamp))));
    Json::object(members)
}

fn rest(rest: &Rest) -> Json {
    let count = |count: &KindCount, of: &'static str, sum: &'static str| {
        Json::object(vec![
            (of, Json::number(count.of)),
            (sum, Json::number(count.sum)),
        ])
    };
    Json::object(vec![
        ("after", Json::number(rest.after)),
        ("losses", count(&rest.losses, "receivers", "values")),
        ("unlearned", count(&rest.unlearned, "receivers", "changes")),
        ("unlooked", count(&rest.unlooked, "receivers", "changes")),
        ("unmarked", count(&rest.unmarked, "receivers", "changes")),
        ("closings", Json::number(rest.closings.of)),
        ("text", optional_text(rest.text().as_deref())),
    ])
}

fn wait(wait: &WaitAtEnd) -> Json {
    let mut members = vec![
        ("actor", Json::number(wait.actor)),
        ("channel", Json::number(wait.channel)),
        ("handle", Json::number(wait.handle)),
        ("call", Json::text(&wait.call)),
        ("since", Json::number(wait.since)),
        ("location", location_of(wait.location.as_ref())),
    ];
    if wait.is_woken {
        members.push(("woken", Json::Bool(true)));
    }
    members.push(("text", Json::text(&wait.text)));
    let stamp = wait.since_stamp;
    members.push_all(stamp.map(|stamp| ("since_stamp", Json::number(stamp))));
    Json::object(members)
}

fn pending(task: &PendingTask) -> Json {
    Json::object(vec![
        ("name", Json::text(&task.name)),
        ("actor", optional_number(task.actor)),
        ("since", Json::number(task.since)),
        ("text", Json::text(&task.text)),
    ])
}

fn loss(loss: &Loss) -> Json {
    let (word, to) = match loss.end {
        LossEnd::Told(place) => ("told", Some(place)),
        LossEnd::Dropped(place) => ("dropped", Some(place)),
        LossEnd::Open => ("open", None),
    };
    Json::object(vec![
        ("channel", Json::number(loss.channel)),
        ("receiver", Json::number(loss.receiver)),
        ("from", Json::number(loss.from)),
        ("to", optional_number(to)),
        ("lost", Json::number(loss.lost)),
        ("end", Json::text(word)),
    ])
}

#[cfg(test)]
mod tests {
    use super::*;
    use yovanelum_record::sidecar::Sidecar;

    #[test]
    fn the_account_for_the_page_lacks_the_losses_alone() {
        let text = b"ttd-journal 2\nbroadcast 1\nsteps\n\
            1 0 0 send 0 5 = sent 1\n2 0 0 send 0 6 = sent 1\nend\n";
        let account = Account::read(text, &Sidecar::default()).unwrap();
        let losses = ",\n  \"losses\": [\n    {\"channel\": 0, \"receiver\": 1, \"from\": 2, \
            \"to\": null, \"lost\": 1, \"end\": \"open\"}\n  ]";
        let whole = account.to_json();
        assert!(whole.contains(losses), "{whole}");
        assert_eq!(account.to_json_for_page(), whole.replace(losses, ""));
    }
}
