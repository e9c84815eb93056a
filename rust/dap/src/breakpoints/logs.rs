//! Log points: a text with expressions between braces, printed in either direction.

use crate::expression::{Entity, Expression, thing_of};
use crate::recording::Recording;
use crate::shown::text_of;
use crate::{Answer, Refusal};

enum Part {
    Text(String),
    Entity(Entity),
    Expression(Expression),
}

/// A text with expressions in it.
pub(crate) struct Log(Vec<Part>);

impl Log {
    /// Reads a text. Two braces of a kind are one.
    pub(crate) fn read(text: &str, recording: &Recording) -> Answer<Log> {
        let mut parts = vec![];
        let mut rest = text;
        while let Some((before, after)) = rest.split_once('{') {
            parts.push(Part::Text(unescaped(before)));
            if let Some(after) = after.strip_prefix('{') {
                parts.push(Part::Text("{".to_string()));
                rest = after;
                continue;
            }
            let (inside, after) = after
                .split_once('}')
                .ok_or_else(|| Refusal::new("`}` is missing"))?;
            parts.push(match thing_of(inside.trim(), recording) {
                Some(thing) => Part::Entity(thing),
                None => Part::Expression(Expression::read(inside, recording)?),
            });
            rest = after;
        }
        parts.push(Part::Text(unescaped(rest)));
        Ok(Log(parts))
    }

    /// Returns the text at the walk's place.
    pub(crate) fn text(&self, recording: &Recording) -> String {
        let Log(parts) = self;
        let texts = parts.iter().map(|part| match part {
            Part::Text(text) => text.clone(),
            Part::Entity(thing) => text_of(*thing, recording),
            Part::Expression(expression) => {
                let value = expression.value(recording);
                value.map_or("not there".to_string(), |value| value.to_string())
            }
        });
        texts.collect()
    }
}

/// Returns a text in which two closing braces are one.
fn unescaped(text: &str) -> String {
    text.replace("}}", "}")
}
