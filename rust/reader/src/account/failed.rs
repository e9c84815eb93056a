//! The failure itself, in one line: who failed, where, in the words of the assertion, and what its
//! last call returned where that is why.

use super::Context;
use super::fact::own_location;
use super::failure::FailureAt;
use yovanelum_record::sidecar::SourceLocation;
use yovanelum_record::visible;

/// How a test failed, in words.
#[derive(Debug)]
pub struct Failed {
    /// The calls before it.
    pub(super) place: u64,
    /// Who failed.
    pub(super) name: String,
    /// The message of the panic or error, or nothing.
    pub(super) message: String,
    pub(super) location: Option<SourceLocation>,
    /// The last call before it, if its reply is why or it is on the line that failed.
    pub(super) last_call: Option<u64>,
    /// All of it in one line.
    pub text: String,
}

impl Failed {
    /// Where it is in the user's sources.
    pub fn own_location(&self) -> Option<&SourceLocation> {
        own_location(self.location.as_ref(), None)
    }

    /// Returns how the test failed, if it did.
    pub(super) fn of(context: &Context<'_>) -> Option<Failed> {
        let end = context.failure.end()?;
        let message = context.failure_text().unwrap_or_default().to_string();
        let location = context.naming.source(end.location.unwrap_or(usize::MAX));
        let last_call = context.failure.last_call();
        let name = context.who_panicked(end);
        Some(Failed {
            place: end.place,
            text: text(context, end, (&name, &message), location),
            name,
            message,
            location: location.cloned(),
            last_call,
        })
    }
}

fn text(
    context: &Context<'_>,
    end: &FailureAt,
    (name, message): (&str, &str),
    location: Option<&SourceLocation>,
) -> String {
    let at = location.map_or(String::new(), |at| format!(" at {}", visible::line_of(at)));
    let message = match (visible::line(message).as_str(), end.panic) {
        ("", None) => " returned an error".to_string(),
        (line, None) => format!(" returned {line}"),
        ("", _) => String::new(),
        (line, _) => format!(": {line}"),
    };
    let call = context.failure.last_call().map(|place| {
        let entry = context.run.entry(place);
        let call = context.naming.call(place, &entry);
        let reply = context.naming.reply(&entry);
        format!("; {} was {call}: {reply}", visible::call(place))
    });
    format!("{name}{at}{message}{}", call.unwrap_or_default())
}
