//! The arguments of a request. Each error in them is a text for the user.

use crate::{Answer, Refusal};
use serde_json::Value;

/// The arguments of a request, or an object in them.
#[derive(Clone, Copy)]
pub(crate) struct Arguments<'a>(&'a Value);

impl<'a> Arguments<'a> {
    /// Takes a value, which is to be an object. `null` is one without members.
    pub(crate) fn of(value: &'a Value) -> Answer<Arguments<'a>> {
        match value {
            Value::Object(_) | Value::Null => Ok(Arguments(value)),
            _ => Err(Refusal::new("the arguments are no object")),
        }
    }

    pub(crate) fn value(self) -> &'a Value {
        self.0
    }

    fn member(self, key: &str) -> Option<&'a Value> {
        self.0.get(key).filter(|value| !value.is_null())
    }

    pub(crate) fn text(self, key: &str) -> Answer<Option<&'a str>> {
        let value = self.member(key);
        let text = value.map(|value| value.as_str().ok_or_else(|| wrong(key, "text")));
        text.transpose()
    }

    pub(crate) fn need_text(self, key: &str) -> Answer<&'a str> {
        self.text(key)?.ok_or_else(|| missing(key))
    }

    pub(crate) fn number(self, key: &str) -> Answer<Option<u64>> {
        let value = self.member(key);
        let number = value.map(|value| whole(value).ok_or_else(|| wrong(key, "number from 0 on")));
        number.transpose()
    }

    pub(crate) fn need_number(self, key: &str) -> Answer<u64> {
        self.number(key)?.ok_or_else(|| missing(key))
    }

    pub(crate) fn flag(self, key: &str) -> Answer<Option<bool>> {
        let value = self.member(key);
        let flag = value.map(|value| value.as_bool().ok_or_else(|| wrong(key, "boolean")));
        flag.transpose()
    }

    /// Returns a list, which may be missing.
    pub(crate) fn list(self, key: &str) -> Answer<&'a [Value]> {
        match self.member(key) {
            None => Ok(&[]),
            Some(Value::Array(items)) => Ok(items),
            Some(_) => Err(wrong(key, "list")),
        }
    }

    /// Returns a list of objects, which may be missing.
    pub(crate) fn objects(self, key: &str) -> Answer<Vec<Arguments<'a>>> {
        self.list(key)?.iter().map(Arguments::of).collect()
    }

    /// Returns a list of texts, which may be missing.
    pub(crate) fn texts(self, key: &str) -> Answer<Vec<&'a str>> {
        let items = self.list(key)?.iter();
        let texts = items.map(|item| item.as_str().ok_or_else(|| wrong(key, "list of texts")));
        texts.collect()
    }

    /// Returns an object, which may be missing.
    pub(crate) fn object(self, key: &str) -> Answer<Arguments<'a>> {
        match self.member(key) {
            None => Ok(Arguments(&Value::Null)),
            Some(value @ Value::Object(_)) => Ok(Arguments(value)),
            Some(_) => Err(wrong(key, "object")),
        }
    }

    /// Returns the members that are texts.
    pub(crate) fn text_members(self) -> impl Iterator<Item = (&'a str, &'a str)> {
        let members = self.0.as_object().into_iter().flatten();
        members.filter_map(|(key, value)| Some((key.as_str(), value.as_str()?)))
    }
}

/// Returns a whole number, also if it is written as one with a fraction of 0.
fn whole(value: &Value) -> Option<u64> {
    let float = || {
        let number = value.as_f64()?;
        let is_whole = (0.0..9e15).contains(&number) && number.fract() == 0.0;
        is_whole.then_some(number as u64)
    };
    value.as_u64().or_else(float)
}

fn missing(key: &str) -> Refusal {
    Refusal(format!("`{key}` is missing"))
}

fn wrong(key: &str, wanted: &str) -> Refusal {
    Refusal(format!("`{key}` is no {wanted}"))
}
