//! The words of an expression.

use crate::{Answer, Refusal};
use std::iter::Peekable;
use std::str::Chars;

#[derive(Clone, Debug, PartialEq, Eq)]
pub(super) enum Token {
    /// A name or a number, with the parts after its points: `audit.lag`. A part may be between
    /// backquotes.
    Operation(Vec<String>),
    Text(String),
    /// An operator or a parenthesis.
    Sign(&'static str),
}

/// The longer ones come first.
const SIGNS: [&str; 12] = [
    "==", "!=", ">=", "<=", "&&", "||", ">", "<", "!", "(", ")", "=",
];

/// Splits a text.
pub(super) fn split(text: &str) -> Answer<Vec<Token>> {
    let mut tokens = vec![];
    let mut chars = text.chars().peekable();
    while let Some(c) = chars.peek().copied() {
        match c {
            c if c.is_whitespace() => drop(chars.next()),
            '"' => tokens.push(Token::Text(quoted(&mut chars, '"')?)),
            c if is_of_word(c) || c == '`' => tokens.push(Token::Operation(parts(&mut chars)?)),
            _ => tokens.push(sign(&mut chars)?),
        }
    }
    Ok(tokens)
}

fn is_of_word(c: char) -> bool {
    c.is_alphanumeric() || matches!(c, '_' | '-' | ':' | '#')
}

fn quoted(chars: &mut Peekable<Chars<'_>>, end: char) -> Answer<String> {
    let mut text = String::new();
    chars.next();
    loop {
        match chars.next() {
            None => return Err(Refusal(format!("`{end}` is missing"))),
            Some(c) if c == end => return Ok(text),
            Some('\\') if end == '"' => text.extend(chars.next()),
            Some(c) => text.push(c),
        }
    }
}

fn parts(chars: &mut Peekable<Chars<'_>>) -> Answer<Vec<String>> {
    let mut parts = vec![];
    loop {
        parts.push(match chars.peek() {
            Some('`') => quoted(chars, '`')?,
            _ => word(chars),
        });
        if chars.next_if_eq(&'.').is_none() {
            return Ok(parts);
        }
    }
}

fn word(chars: &mut Peekable<Chars<'_>>) -> String {
    let mut word = String::new();
    while let Some(c) = chars.next_if(|c| is_of_word(*c)) {
        word.push(c);
    }
    word
}

fn sign(chars: &mut Peekable<Chars<'_>>) -> Answer<Token> {
    let rest: String = chars.clone().take(2).collect();
    let sign = SIGNS.into_iter().find(|sign| rest.starts_with(sign));
    let sign = sign.ok_or_else(|| Refusal(format!("`{rest}` isn't understood")))?;
    for _ in sign.chars() {
        chars.next();
    }
    // Many write one sign where languages have two.
    Ok(Token::Sign(if sign == "=" { "==" } else { sign }))
}
