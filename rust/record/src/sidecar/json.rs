//! A small reader and writer of JSON. The crate has no dependencies.

use super::push_string;
use crate::listed::IntoList;
use std::fmt::Display;

/// How deep lists and objects may be nested. Files of names need four.
const DEEPEST: usize = 32;

/// A JSON value.
///
/// No part of what this crate promises: it is for the command `cargo yovanelum`.
#[doc(hidden)]
#[derive(Clone, Debug, PartialEq)]
pub enum Json {
    Null,
    Bool(bool),
    /// A number, as it is written.
    Number(String),
    Text(String),
    List(Vec<Json>),
    /// The members in the order in which they are written.
    Object(Vec<(String, Json)>),
}

impl Json {
    /// Returns the member of an object with this key.
    pub fn get(&self, key: &str) -> Option<&Json> {
        let Json::Object(members) = self else {
            return None;
        };
        let mut members = members.iter();
        members
            .find(|(name, _)| name == key)
            .map(|(_, value)| value)
    }

    /// Returns the text that this is.
    pub fn as_text(&self) -> Option<&str> {
        match self {
            Json::Text(text) => Some(text),
            _ => None,
        }
    }

    /// Returns the values of a list, or none if this isn't one.
    pub fn items(&self) -> &[Json] {
        match self {
            Json::List(items) => items,
            _ => &[],
        }
    }

    /// Returns the members of an object, or none if this isn't one.
    pub fn members(&self) -> &[(String, Json)] {
        match self {
            Json::Object(members) => members,
            _ => &[],
        }
    }

    pub fn text(text: &str) -> Json {
        Json::Text(text.to_string())
    }

    pub fn number(number: impl Display) -> Json {
        Json::Number(number.to_string())
    }

    pub fn object(members: Vec<(&str, Json)>) -> Json {
        let members = members.into_iter();
        Json::Object(
            members
                .map(|(key, value)| (key.to_string(), value))
                .listed(),
        )
    }

    /// Appends the value, on one line.
    pub fn push(&self, out: &mut String) {
        match self {
            Json::Null => out.push_str("null"),
            Json::Bool(flag) => out.push_str(if *flag { "true" } else { "false" }),
            Json::Number(number) => out.push_str(number),
            Json::Text(text) => push_string(out, text),
            Json::List(items) => super::push_list(out, items, |out, item| item.push(out)),
            Json::Object(members) => push_members(out, members),
        }
    }
}

fn push_members(out: &mut String, members: &[(String, Json)]) {
    out.push('{');
    for (index, (key, value)) in members.iter().enumerate() {
        out.push_str(if index > 0 { ", " } else { "" });
        push_string(out, key);
        out.push_str(": ");
        value.push(out);
    }
    out.push('}');
}

/// Reads a document.
///
/// # Errors
///
/// Returns what is wrong with it, with the line.
///
/// No part of what this crate promises: it is for the command `cargo yovanelum`.
#[doc(hidden)]
pub fn read(text: &str) -> Result<Json, String> {
    let mut reader = JsonReader {
        rest: text,
        line: 1,
    };
    let document = reader.value(0);
    let whole = document.and_then(|value| reader.end().map(|()| value));
    whole.map_err(|fault| format!("line {}: {fault}", reader.line))
}

/// Reads a document that is an object. Each of its members is read by `member`, so that not all of
/// them have to be there at once. It is given the key.
///
/// # Errors
///
/// Returns what is wrong with the document, or what `member` returns.
pub(super) fn read_members<'a>(
    text: &'a str,
    member: &mut dyn FnMut(&mut JsonReader<'a>, String) -> Result<(), String>,
) -> Result<(), String> {
    let mut reader = JsonReader {
        rest: text,
        line: 1,
    };
    reader.members(member)?;
    reader.end()
}

/// Reads a document from its beginning to its end.
pub(super) struct JsonReader<'a> {
    rest: &'a str,
    line: usize,
}

impl JsonReader<'_> {
    fn peek(&self) -> Option<char> {
        self.rest.chars().next()
    }

    fn next(&mut self) -> Result<char, String> {
        let next = self.peek().ok_or("it ends too early")?;
        self.rest = &self.rest[next.len_utf8()..];
        self.line += usize::from(next == '\n');
        Ok(next)
    }

    fn skip_spaces(&mut self) {
        while let Some(' ' | '\t' | '\r' | '\n') = self.peek() {
            let _ = self.next();
        }
    }

    /// Reads what is left of a document behind its value: nothing.
    fn end(&mut self) -> Result<(), String> {
        self.skip_spaces();
        match self.peek() {
            None => Ok(()),
            Some(_) => Err("something follows the document".to_string()),
        }
    }

    /// Reads this character, after spaces. Returns whether it comes next.
    fn reads(&mut self, wanted: char) -> bool {
        self.skip_spaces();
        let comes = self.peek() == Some(wanted);
        if comes {
            let _ = self.next();
        }
        comes
    }

    fn expect(&mut self, wanted: char) -> Result<(), String> {
        if self.reads(wanted) {
            Ok(())
        } else {
            Err(format!("`{wanted}` is missing"))
        }
    }

    /// Reads a value that is in so many lists and objects.
    pub(super) fn value(&mut self, depth: usize) -> Result<Json, String> {
        if depth > DEEPEST {
            return Err("it is nested too deep".to_string());
        }
        self.skip_spaces();
        match self.peek() {
            Some('{') => self.object(depth),
            Some('[') => self.list(depth),
            Some('"') => self.text().map(Json::Text),
            Some('-' | '0'..='9') => Ok(Json::Number(self.word())),
            Some('a'..='z') => self.constant(),
            Some(other) => Err(format!("`{other}` is no value")),
            None => Err("it ends too early".to_string()),
        }
    }

    fn object(&mut self, depth: usize) -> Result<Json, String> {
        let mut members = vec![];
        self.members(&mut |reader, key| {
            members.push((key, reader.value(depth + 1)?));
            Ok(())
        })?;
        Ok(Json::Object(members))
    }

    /// Reads an object. Each of its members is read by `member`, which is given the key.
    pub(super) fn members(
        &mut self,
        member: &mut dyn FnMut(&mut Self, String) -> Result<(), String>,
    ) -> Result<(), String> {
        self.expect('{')?;
        if self.reads('}') {
            return Ok(());
        }
        loop {
            self.skip_spaces();
            let key = self.text()?;
            self.expect(':')?;
            member(self, key)?;
            if !self.reads(',') {
                return self.expect('}');
            }
        }
    }

    fn list(&mut self, depth: usize) -> Result<Json, String> {
        let mut items = vec![];
        self.items(|reader| {
            items.push(reader.value(depth + 1)?);
            Ok(())
        })?;
        Ok(Json::List(items))
    }

    /// Reads a list. Each of its items is read by `item`.
    pub(super) fn items(
        &mut self,
        mut item: impl FnMut(&mut Self) -> Result<(), String>,
    ) -> Result<(), String> {
        self.expect('[')?;
        if self.reads(']') {
            return Ok(());
        }
        loop {
            item(self)?;
            if !self.reads(',') {
                return self.expect(']');
            }
        }
    }

    /// Reads a value that is in so many lists and objects, and keeps nothing of it.
    pub(super) fn pass(&mut self, depth: usize) -> Result<(), String> {
        self.skip_spaces();
        match self.peek() {
            Some('{') if depth <= DEEPEST => self.members(&mut |reader, _| reader.pass(depth + 1)),
            Some('[') if depth <= DEEPEST => self.items(|reader| reader.pass(depth + 1)),
            _ => self.value(depth).map(drop),
        }
    }

    fn text(&mut self) -> Result<String, String> {
        self.expect('"')?;
        let mut text = String::new();
        loop {
            text.push_str(self.plain_part());
            match self.next()? {
                '"' => return Ok(text),
                '\\' => text.push(self.escaped()?),
                _ => return Err("a text has a control character".to_string()),
            }
        }
    }

    /// Reads the characters of a text before its end, an escape or a control character.
    fn plain_part(&mut self) -> &str {
        let mut bytes = self.rest.bytes();
        let end = bytes.position(|byte| matches!(byte, b'"' | b'\\' | 0..b' '));
        let (part, rest) = self.rest.split_at(end.unwrap_or(self.rest.len()));
        self.rest = rest;
        part
    }

    /// Reads what follows a backslash.
    fn escaped(&mut self) -> Result<char, String> {
        Ok(match self.next()? {
            'b' => '\u{8}',
            'f' => '\u{c}',
            'n' => '\n',
            'r' => '\r',
            't' => '\t',
            'u' => return self.code_point(),
            c @ ('"' | '\\' | '/') => c,
            other => return Err(format!("`\\{other}` is no escape")),
        })
    }

    /// Reads the digits of an escape, and those of its second half if it is a surrogate.
    fn code_point(&mut self) -> Result<char, String> {
        let first = self.code_unit()?;
        let mut units = vec![first];
        if (0xD800..0xDC00).contains(&first) && self.next()? == '\\' && self.next()? == 'u' {
            units.push(self.code_unit()?);
        }
        let decoded = char::decode_utf16(units).next();
        decoded
            .and_then(Result::ok)
            .ok_or_else(|| "half a character is escaped".to_string())
    }

    fn code_unit(&mut self) -> Result<u16, String> {
        let mut unit = 0;
        for _ in 0..4 {
            let digit = self.next()?.to_digit(16);
            unit = unit * 16 + digit.ok_or("an escape has four digits")?;
        }
        Ok(unit as u16)
    }

    /// Reads a number or a constant, up to a character that neither has.
    fn word(&mut self) -> String {
        let end = self.rest.find(|c| !is_part_of_word(c));
        let (word, rest) = self.rest.split_at(end.unwrap_or(self.rest.len()));
        self.rest = rest;
        word.to_string()
    }

    fn constant(&mut self) -> Result<Json, String> {
        match self.word().as_str() {
            "null" => Ok(Json::Null),
            "true" => Ok(Json::Bool(true)),
            "false" => Ok(Json::Bool(false)),
            other => Err(format!("`{other}` is no value")),
        }
    }
}

fn is_part_of_word(c: char) -> bool {
    c.is_ascii_alphanumeric() || matches!(c, '+' | '-' | '.')
}

#[cfg(test)]
mod tests {
    use super::*;

    fn text(text: &str) -> Json {
        Json::Text(text.to_string())
    }

    #[test]
    fn each_kind_of_value_is_read() {
        let read = read(" {\"a\": [null, true, false, -1.5e3],\r\n\t\"b\": {}, \"c\": []} ");
        let numbers = vec![
            Json::Null,
            Json::Bool(true),
            Json::Bool(false),
            Json::Number("-1.5e3".to_string()),
        ];
        let wanted = Json::Object(vec![
            ("a".to_string(), Json::List(numbers)),
            ("b".to_string(), Json::Object(vec![])),
            ("c".to_string(), Json::List(vec![])),
        ]);
        assert_eq!(read, Ok(wanted));
    }

    #[test]
    fn escapes_are_read() {
        let read = read(r#""a\"\\\/\b\f\n\r\té\u00e9\ud83d\ude00""#);
        assert_eq!(read, Ok(text("a\"\\/\u{8}\u{c}\n\r\téé😀")));
    }

    #[test]
    fn what_is_wrong_is_said_with_its_line() {
        for (document, fault) in [
            ("", "line 1: it ends too early"),
            ("{\n\"a\" 1}", "line 2: `:` is missing"),
            ("[1\n2]", "line 2: `]` is missing"),
            ("{\"a\": 1,}", "line 1: `\"` is missing"),
            ("\"a\n\"", "line 2: a text has a control character"),
            (r#""\x""#, "line 1: `\\x` is no escape"),
            (r#""\u12g4""#, "line 1: an escape has four digits"),
            (r#""\ud800\u0041""#, "line 1: half a character is escaped"),
            ("nil", "line 1: `nil` is no value"),
            ("?", "line 1: `?` is no value"),
            ("1\n 2", "line 2: something follows the document"),
        ] {
            assert_eq!(read(document), Err(fault.to_string()), "{document}");
        }
        let deep = "[".repeat(40);
        assert_eq!(
            read(&deep),
            Err("line 1: it is nested too deep".to_string())
        );
    }
}
