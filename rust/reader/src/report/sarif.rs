//! The account as SARIF 2.1.0, which code hosts and editors show: a result for the failure, for
//! each fact, with a code flow through its steps, and for each call that waits. Code hosts refuse a
//! result without a place, so what has none is a notification.

use crate::account::{Account, Fact, FactStep, Failed, WaitAtEnd};
use std::env;
use std::path::Path;
use yovanelum_record::listed::{IntoList, PushAll};
use yovanelum_record::sidecar::{Json, SourceLocation};

/// Where the schema of the format is.
const SCHEMA: &str =
    "https://docs.oasis-open.org/sarif/sarif/v2.1.0/errata01/os/schemas/sarif-schema-2.1.0.json";

/// The base of paths that are relative.
const ROOT: &str = "SRCROOT";

/// The rule of the failure itself.
const FAILURE: &str = "failure";

/// The rule of a call that waits at the end.
const WAITING: &str = "waiting";

/// The rules by the kinds of facts, with what each says.
const RULES: [(&str, &str); 14] = [
    (FAILURE, "A test failed."),
    (WAITING, "A call on a channel waits."),
    (
        "panic",
        "Another thread or task panicked before the failure.",
    ),
    ("loss", "A receiver lost values of a broadcast channel."),
    ("wait", "A call waits that the failure came of."),
    (
        "dropped",
        "A call waited, and was dropped before it completed.",
    ),
    ("empty", "A receive found nothing."),
    ("value", "A receive returned this value."),
    ("asked", "A call was answered so."),
    ("unreached", "A send reached nobody."),
    (
        "unlearned",
        "A receiver never learned of changes of a watch channel.",
    ),
    (
        "unlooked",
        "A receiver marked changes of a watch channel as seen without a look.",
    ),
    (
        "unmarked",
        "A receiver never marked changes of a watch channel as seen.",
    ),
    ("closing", "A channel closed while it had receivers."),
];

/// Returns the account as a SARIF log, as a line.
pub fn sarif(account: &Account) -> String {
    let rules = RULES.iter().map(|(id, text)| {
        Json::object(vec![
            ("id", Json::text(id)),
            ("shortDescription", message(text)),
        ])
    });
    let driver = Json::object(vec![
        ("name", Json::text("yovanelum")),
        ("version", Json::text(env!("CARGO_PKG_VERSION"))),
        ("rules", Json::List(rules.listed())),
    ]);
    let places = Places::of(account.root.as_deref(), env::var("GITHUB_WORKSPACE").ok());
    let mut run = vec![
        ("tool", Json::object(vec![("driver", driver)])),
        ("columnKind", Json::text("unicodeCodePoints")),
    ];
    if let Some(base) = &places.base {
        let base = Json::object(vec![("uri", Json::text(&uri_of_folder(base)))]);
        run.push(("originalUriBaseIds", Json::object(vec![(ROOT, base)])));
    }
    run.push_all(invocation(account));
    run.push(("results", Json::List(places.results(account))));
    let log = Json::object(vec![
        ("$schema", Json::text(SCHEMA)),
        ("version", Json::text("2.1.0")),
        ("runs", Json::List(vec![Json::object(run)])),
    ]);
    let mut out = String::new();
    log.push(&mut out);
    out.push('\n');
    out
}

/// Returns the first place of a fact in the user's sources, or else that of the failure.
fn place_of<'a>(account: &'a Account, fact: &'a Fact) -> Option<&'a SourceLocation> {
    let failed = account.failed.as_ref();
    fact.own_location()
        .or(failed.and_then(Failed::own_location))
}

/// Why there is a dump, what isn't known of the run, and what has no place in the sources, as
/// notifications of the tool.
fn invocation(account: &Account) -> Option<(&'static str, Json)> {
    let notification = |level: &str, text: &str| {
        Json::object(vec![
            ("level", Json::text(level)),
            ("message", message(text)),
        ])
    };
    let window = account.window.iter();
    let mut notifications = window
        .map(|window| notification("note", &window.text))
        .listed();
    let left = account.left.iter();
    notifications.push_all(left.map(|left| notification("warning", &left.text)));
    let unknown = account.unknown.iter();
    let unknown = unknown.map(|line| notification("warning", &format!("not all is known: {line}")));
    notifications.push_all(unknown);
    let failed = account
        .failed
        .iter()
        .filter(|it| it.own_location().is_none());
    notifications.push_all(failed.map(|failed| notification("error", &failed.text)));
    let race = account.race.iter();
    let race = race.map(|race| notification("note", &format!("the race: {}", race.text)));
    notifications.push_all(race);
    let facts = account.with_levels();
    let facts = facts.filter(|(_, fact)| place_of(account, fact).is_none());
    let facts = facts.map(|(level, fact)| notification(level.word(), &fact.text().join("\n")));
    notifications.push_all(facts);
    let waits = account
        .waiting
        .iter()
        .filter(|it| it.own_location().is_none());
    notifications.push_all(waits.map(|wait| notification("note", &wait.text)));
    let tasks = account.pending.iter();
    let tasks = tasks.map(|task| notification("note", &format!("waits: {}", task.text)));
    notifications.push_all(tasks);
    let is_needed = !notifications.is_empty();
    let invocation = Json::object(vec![
        ("executionSuccessful", Json::Bool(true)),
        ("toolExecutionNotifications", Json::List(notifications)),
    ]);
    is_needed.then(|| ("invocations", Json::List(vec![invocation])))
}

fn message(text: &str) -> Json {
    Json::object(vec![("text", Json::text(text))])
}

/// The folder that relative paths are relative to, and what comes before each.
struct Places {
    base: Option<String>,
    before: String,
}

impl Places {
    /// Paths are of the repository, if the folder of the sources is in it, since code hosts know no
    /// other. Else they are of that folder.
    fn of(root: Option<&str>, repository: Option<String>) -> Places {
        let inside = |repository: String| {
            let before = Path::new(root?).strip_prefix(&repository).ok()?;
            let before = before.to_str()?.replace('\\', "/");
            Some((repository, before))
        };
        match repository.and_then(inside) {
            Some((repository, before)) if before.is_empty() => Places {
                base: Some(repository),
                before,
            },
            Some((repository, before)) => Places {
                base: Some(repository),
                before: before + "/",
            },
            None => Places {
                base: root.map(str::to_string),
                before: String::new(),
            },
        }
    }

    /// The failure, the facts, and the calls that wait, of which a place is known.
    fn results(&self, account: &Account) -> Vec<Json> {
        let failed = account.failed.iter();
        let mut results = failed.filter_map(|it| self.failure(it)).listed();
        let facts = account.with_levels();
        results.push_all(facts.filter_map(|(level, fact)| self.fact(account, fact, level.word())));
        results.push_all(account.waiting.iter().filter_map(|it| self.wait(it)));
        results
    }

    fn failure(&self, failed: &Failed) -> Option<Json> {
        let location = failed.own_location()?;
        Some(self.result(FAILURE, "error", &failed.text, location, None))
    }

    fn wait(&self, wait: &WaitAtEnd) -> Option<Json> {
        let location = wait.own_location()?;
        Some(self.result(WAITING, "note", &wait.text, location, None))
    }

    fn fact(&self, account: &Account, fact: &Fact, level: &str) -> Option<Json> {
        let location = place_of(account, fact)?;
        let text = fact.text();
        let steps = (1..).zip(&fact.steps);
        let steps = steps.map(|(order, step)| self.flow_location(order, step, &text[order]));
        let thread = Json::object(vec![("locations", Json::List(steps.listed()))]);
        let flow = Json::object(vec![("threadFlows", Json::List(vec![thread]))]);
        Some(self.result(fact.kind, level, &text.join("\n"), location, Some(flow)))
    }

    fn result(
        &self,
        rule: &str,
        level: &str,
        text: &str,
        location: &SourceLocation,
        flow: Option<Json>,
    ) -> Json {
        let index = RULES.iter().position(|(kind, _)| *kind == rule);
        let place = Json::object(vec![("physicalLocation", self.physical(location))]);
        let mut members = vec![
            ("ruleId", Json::text(rule)),
            ("ruleIndex", Json::number(index.unwrap_or(0))),
            ("level", Json::text(level)),
            ("message", message(text)),
            ("locations", Json::List(vec![place])),
        ];
        members.push_all(flow.map(|flow| ("codeFlows", Json::List(vec![flow]))));
        Json::object(members)
    }

    /// A step of a fact in its code flow.
    fn flow_location(&self, order: usize, step: &FactStep, line: &str) -> Json {
        let mut location = vec![];
        if let Some(source) = step.own_location() {
            location.push(("physicalLocation", self.physical(source)));
        }
        location.push(("message", message(line.trim_start())));
        Json::object(vec![
            ("executionOrder", Json::number(order)),
            ("location", Json::object(location)),
        ])
    }

    fn physical(&self, location: &SourceLocation) -> Json {
        let is_absolute = location.file.starts_with('/') || location.file.contains(':');
        let mut artifact = vec![];
        if is_absolute {
            artifact.push(("uri", Json::text(&uri_of_file(&location.file))));
        } else {
            let file = format!("{}{}", self.before, location.file);
            artifact.push(("uri", Json::text(&escaped(&file))));
            artifact.push(("uriBaseId", Json::text(ROOT)));
        }
        Json::object(vec![
            ("artifactLocation", Json::object(artifact)),
            (
                "region",
                Json::object(vec![
                    ("startLine", Json::number(location.line)),
                    ("startColumn", Json::number(location.column)),
                ]),
            ),
        ])
    }
}

fn uri_of_folder(path: &str) -> String {
    let uri = uri_of_file(path);
    if uri.ends_with('/') { uri } else { uri + "/" }
}

fn uri_of_file(path: &str) -> String {
    let path = escaped(path);
    if path.starts_with('/') {
        format!("file://{path}")
    } else {
        format!("file:///{path}")
    }
}

/// Returns a path with what has a meaning of its own in an address escaped.
fn escaped(path: &str) -> String {
    let mut out = String::new();
    yovanelum_record::look::push_path(&mut out, path);
    out
}

#[cfg(test)]
mod tests {
    use super::*;

    #[test]
    fn paths_are_of_the_repository_if_the_sources_are_in_it() {
        let places = |root, repository: Option<&str>| {
            let places = Places::of(root, repository.map(str::to_string));
            (places.base, places.before)
        };
        let base = |base: &str| Some(base.to_string());
        assert_eq!(
            places(Some("/r/shop"), Some("/r")),
            (base("/r"), "shop/".into())
        );
        assert_eq!(places(Some("/r"), Some("/r")), (base("/r"), String::new()));
        assert_eq!(places(Some("/x"), Some("/r")), (base("/x"), String::new()));
        assert_eq!(places(Some("/x"), None), (base("/x"), String::new()));
        assert_eq!(places(None, Some("/r")), (None, String::new()));
    }
}
