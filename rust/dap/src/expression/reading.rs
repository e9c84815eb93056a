//! Reads expressions.

use super::tokens::{Token, split};
use super::{Comparison, Entity, Expression, Field, Operand, Value, thing_of, unknown};
use crate::recording::Recording;
use crate::{Answer, Refusal};
use std::iter::Peekable;
use std::vec::IntoIter;

/// How deep an expression may be nested.
const DEPTH: usize = 32;

struct ExpressionReader<'a> {
    tokens: Peekable<IntoIter<Token>>,
    recording: &'a Recording,
    depth: usize,
}

pub(super) fn read(text: &str, recording: &Recording) -> Answer<Expression> {
    let mut reader = ExpressionReader {
        tokens: split(text)?.into_iter().peekable(),
        recording,
        depth: 0,
    };
    let expression = reader.either()?;
    match reader.tokens.next() {
        None => Ok(expression),
        Some(token) => Err(Refusal(format!("`{}` isn't expected there", shown(&token)))),
    }
}

fn shown(token: &Token) -> String {
    match token {
        Token::Operation(parts) => parts.join("."),
        Token::Text(text) => text.clone(),
        Token::Sign(sign) => sign.to_string(),
    }
}

impl ExpressionReader<'_> {
    fn takes(&mut self, sign: &'static str) -> bool {
        self.tokens.next_if_eq(&Token::Sign(sign)).is_some()
    }

    fn either(&mut self) -> Answer<Expression> {
        let mut left = self.both()?;
        while self.takes("||") {
            left = Expression::Either(left.into(), self.both()?.into());
        }
        Ok(left)
    }

    fn both(&mut self) -> Answer<Expression> {
        let mut left = self.single()?;
        while self.takes("&&") {
            left = Expression::Both(left.into(), self.single()?.into());
        }
        Ok(left)
    }

    fn single(&mut self) -> Answer<Expression> {
        if self.depth >= DEPTH {
            return Err(Refusal::new("it is nested too deep"));
        }
        self.depth += 1;
        let single = self.nested();
        self.depth -= 1;
        single
    }

    fn nested(&mut self) -> Answer<Expression> {
        if self.takes("!") {
            return Ok(Expression::Not(self.single()?.into()));
        }
        if self.takes("(") {
            let inner = self.either()?;
            return if self.takes(")") {
                Ok(inner)
            } else {
                Err(Refusal::new("`)` is missing"))
            };
        }
        self.comparison()
    }

    fn comparison(&mut self) -> Answer<Expression> {
        if let Some(condition) = self.condition()? {
            return Ok(condition);
        }
        let left = self.operand()?;
        let how = match self.tokens.peek() {
            Some(Token::Sign("==")) => Comparison::Equal,
            Some(Token::Sign("!=")) => Comparison::Unequal,
            Some(Token::Sign("<")) => Comparison::Less,
            Some(Token::Sign("<=")) => Comparison::AtMost,
            Some(Token::Sign(">")) => Comparison::More,
            Some(Token::Sign(">=")) => Comparison::AtLeast,
            _ => return Ok(Expression::Value(left)),
        };
        self.tokens.next();
        Ok(Expression::Compare(left, how, self.operand()?))
    }

    /// Reads a condition of the console, by names or by numbers, if one is next.
    fn condition(&mut self) -> Answer<Option<Expression>> {
        let is_followed = {
            let mut ahead = self.tokens.clone();
            ahead.next();
            matches!(ahead.next(), Some(Token::Operation(_)))
        };
        let word = match self.tokens.peek() {
            Some(Token::Operation(parts)) if parts.len() == 1 && is_followed => parts[0].clone(),
            _ => return Ok(None),
        };
        let field = match word.as_str() {
            "lagging" => Field::Lag,
            "unread" => Field::Unread,
            "unseen" => Field::Seen,
            "version" => Field::Version,
            "closed" => Field::Closed,
            "queue" => Field::Queued,
            "reply" | "actor" | "channel" => {
                self.tokens.next();
                return self.of_call(&word).map(Some);
            }
            _ => return Ok(None),
        };
        self.tokens.next();
        let thing = match field {
            Field::Lag | Field::Unread | Field::Seen => self.receiver()?,
            _ => Entity::Channel(self.channel()?),
        };
        self.with_field(thing, field).map(Some)
    }

    fn with_field(&mut self, thing: Entity, field: Field) -> Answer<Expression> {
        let operand = Operand::Of(thing, field);
        match field {
            Field::Closed => Ok(Expression::Value(operand)),
            Field::Lag => {
                let none = Operand::Known(Value::Number(0));
                Ok(Expression::Compare(operand, Comparison::More, none))
            }
            Field::Seen => {
                let unseen = Operand::Known(Value::Flag(false));
                Ok(Expression::Compare(operand, Comparison::Equal, unseen))
            }
            _ => {
                let least = Operand::Known(Value::Number(self.number()?));
                Ok(Expression::Compare(operand, Comparison::AtLeast, least))
            }
        }
    }

    /// Reads the rest of a condition on calls.
    fn of_call(&mut self, word: &str) -> Answer<Expression> {
        match word {
            "reply" => Ok(Expression::Replies(self.word()?)),
            "channel" => Ok(Expression::Is(Entity::Channel(self.channel()?))),
            _ => {
                let name = self.word()?;
                let known = match thing_of(&name, self.recording) {
                    // An actor may have the name of a receiver.
                    Some(Entity::Actor(actor)) => Some(actor),
                    _ => self.recording.things.actor(&name),
                };
                let actor = known.or_else(|| name.parse().ok());
                let actor = actor.ok_or_else(|| unknown(&name))?;
                Ok(Expression::Is(Entity::Actor(actor)))
            }
        }
    }

    fn word(&mut self) -> Answer<String> {
        match self.tokens.next() {
            Some(Token::Operation(parts)) => Ok(parts.join(".")),
            Some(Token::Text(text)) => Ok(text),
            _ => Err(Refusal::new("a name is missing")),
        }
    }

    fn number(&mut self) -> Answer<u64> {
        let word = self.word()?;
        let number = word.parse();
        number.map_err(|_| Refusal(format!("`{word}` is no number")))
    }

    fn channel(&mut self) -> Answer<u32> {
        let name = self.word()?;
        match (thing_of(&name, self.recording), name.parse()) {
            (Some(Entity::Channel(channel)), _) => Ok(channel),
            (_, Ok(number)) if number < self.recording.walk().channels() => Ok(number),
            _ => Err(unknown(&name)),
        }
    }

    /// Reads a receiver by its name, or by the numbers of its channel and its handle.
    fn receiver(&mut self) -> Answer<Entity> {
        let name = self.word()?;
        match (thing_of(&name, self.recording), name.parse()) {
            (Some(receiver @ Entity::Receiver(..)), _) => Ok(receiver),
            (_, Ok(channel)) => {
                let handle = self.number()?;
                let handle = u32::try_from(handle).unwrap_or(u32::MAX);
                Ok(Entity::Receiver(channel, handle))
            }
            _ => Err(unknown(&name)),
        }
    }

    fn operand(&mut self) -> Answer<Operand> {
        match self.tokens.next() {
            Some(Token::Text(text)) => Ok(Operand::Known(Value::Text(text))),
            Some(Token::Operation(parts)) => self.named(parts),
            Some(Token::Sign(sign)) => Err(Refusal(format!("`{sign}` isn't expected there"))),
            None => Err(Refusal::new("an expression is missing")),
        }
    }

    fn named(&self, mut parts: Vec<String>) -> Answer<Operand> {
        let whole = parts.join(".");
        if let Ok(number) = whole.parse() {
            return Ok(Operand::Known(Value::Number(number)));
        }
        match whole.as_str() {
            "true" => return Ok(Operand::Known(Value::Flag(true))),
            "false" => return Ok(Operand::Known(Value::Flag(false))),
            // `step` is an older word for it.
            "number" | "step" => return Ok(Operand::Number),
            "actor" => return Ok(Operand::Actor),
            "call" => return Ok(Operand::Call),
            "reply" => return Ok(Operand::Reply),
            _ => {}
        }
        let field = parts.pop().as_deref().and_then(Field::of);
        let thing = thing_of(&parts.join("."), self.recording);
        match (thing, field) {
            (Some(thing), Some(field)) => Ok(Operand::Of(thing, field)),
            _ => Err(unknown(&whole)),
        }
    }
}
