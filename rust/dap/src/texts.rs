//! Texts of a run: the lines of its report, and the text for a source that isn't on this machine.

use crate::arguments::Arguments;
use crate::moves::Debuggee;
use crate::{Answer, Refusal};
use serde_json::{Value, json};
use std::collections::BTreeSet;

/// The line of a source up to which its text is made.
const LAST_LINE: u32 = 100_000;

impl Debuggee {
    /// Returns the lines of the report, as events that the client prints. Those of calls can be
    /// followed to their places in the sources.
    pub(crate) fn report_lines(&self) -> Vec<Value> {
        let lines = self.recording.names.report().lines();
        let lines = lines.map(|line| {
            let mut body = json!({"category": "console", "output": format!("{line}\n")});
            let call = line
                .strip_prefix("  call ")
                .and_then(|rest| rest.split(' ').next()?.parse().ok());
            self.put_location(
                &mut body,
                call.and_then(|call| self.recording.location(call)),
            );
            body
        });
        lines.collect()
    }

    pub(crate) fn loaded_sources(&self) -> Answer {
        let files = self.recording.sources.files();
        let sources = files.map(|file| self.recording.sources.source(file));
        Ok(json!({"sources": sources.collect::<Vec<_>>()}))
    }

    /// Returns a text for a source that isn't here: at each line the calls that were made there.
    pub(crate) fn source(&self, given: Arguments<'_>) -> Answer {
        let within = given.object("source")?;
        let file = match given
            .number("sourceReference")?
            .filter(|reference| *reference > 0)
        {
            Some(reference) => self
                .recording
                .sources
                .file_of_reference(reference)
                .map(str::to_string),
            None => self.recording.file_of(within)?,
        };
        let file = file.ok_or_else(|| Refusal::new("there is no such source in this run"))?;
        let here = self.recording.locations_in(&file);
        let last = here.last().map_or(0, |(line, ..)| (*line).min(LAST_LINE));
        let mut lines = vec![String::new(); last as usize];
        for line in here.iter().map(|(line, ..)| *line).collect::<BTreeSet<_>>() {
            if let Some(text) = lines.get_mut(line as usize - 1) {
                *text = self.calls_at(&file, line);
            }
        }
        Ok(json!({"content": lines.join("\n") + "\n", "mimeType": "text/x-rust"}))
    }

    /// Returns which methods were called at a line, and how often.
    fn calls_at(&self, file: &str, line: u32) -> String {
        let places = self.recording.places_of_line(file, line, None);
        let names = &self.recording.names;
        let methods = places.iter().filter_map(|place| {
            let entry = self.recording.entry(*place)?;
            Some(format!(
                "{}.{}(..);",
                names.channel(entry.channel()),
                names.method((*place).into(), &entry)
            ))
        });
        let methods: Vec<_> = methods
            .take(1000)
            .collect::<BTreeSet<_>>()
            .into_iter()
            .collect();
        format!("{} // calls: {}", methods.join(" "), places.len())
    }

    /// Returns a location by the number that a variable has of it.
    pub(crate) fn location(&self, given: Arguments<'_>) -> Answer {
        let reference = given.need_number("locationReference")?;
        let index = usize::try_from(reference)
            .ok()
            .and_then(|it| it.checked_sub(1));
        let known = index.filter(|index| *index < self.recording.names.locations().len());
        let index = known.ok_or_else(|| Refusal::new("there is no such location"))?;
        let mut body = json!({});
        self.put_location(&mut body, Some(index));
        Ok(body)
    }
}
