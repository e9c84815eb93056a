//! A stand-in for the kit's port of `serde_json`, as much of it as the sources use: values, `json!`, and their text.
//!
//! In a clause `view` is the value as contracts see it.

use super::alloc::{AllocError, Global};
use super::itoa::Buffer;
use super::string::String;
use super::vec::Vec;

/// A value of JSON. The sources have no numbers but `u64`.
#[derive(Debug)]
pub enum Value {
    Null,
    Bool(bool),
    Number(u64),
    String(String),
    Array(Vec<Value>),
    Object(Map<String, Value>),
}

/// The members of an object, in the order of their keys' bytes. The sources name each key of an
/// object, so there are ten at most.
#[derive(Debug)]
pub struct Map<K, V>(Vec<(K, V)>);

impl<K, V> Map<K, V> {
    /// The port's clause: `result.entries ≡ []`. It allocates nothing.
    pub fn new(alloc: Global) -> Map<K, V> {
        Map(Vec::new(alloc))
    }
}

/// Sets a member.
///
/// The port's clauses: `OnOk result (members_view map'.entries ≡ with_member key (view value)
/// (members_view map.entries))`, and on an error the map stays.
pub fn put(
    map: &mut Map<String, Value>,
    alloc: Global,
    key: &str,
    value: Value,
) -> Result<(), AllocError> {
    match map.0.binary_search_by(|(other, _)| other.as_str().cmp(key)) {
        Ok(place) => map.0[place].1 = value,
        Err(place) => {
            let mut name = String::new(alloc);
            name.push_str(key)?;
            map.0.push((name, value))?;
            map.0[place..].rotate_right(1);
        }
    }
    Ok(())
}

impl From<u64> for Value {
    /// The port's clause: `view v ≡ number (unsigned x)`.
    fn from(number: u64) -> Value {
        Value::Number(number)
    }
}

impl From<u32> for Value {
    /// The port's clause: `view v ≡ number (unsigned x)`.
    fn from(number: u32) -> Value {
        Value::Number(number.into())
    }
}

impl From<bool> for Value {
    /// The port's clause: `view v ≡ boolean x`.
    fn from(truth: bool) -> Value {
        Value::Bool(truth)
    }
}

impl From<Vec<Value>> for Value {
    /// The port's clause: the view has the items' views, in their order.
    fn from(items: Vec<Value>) -> Value {
        Value::Array(items)
    }
}

impl<T: Into<Value>> From<Option<T>> for Value {
    /// The port's clause: the view of the value, or `null` if there is none.
    fn from(value: Option<T>) -> Value {
        value.map_or(Value::Null, T::into)
    }
}

/// What `json!` takes as a value.
pub trait ToValue {
    /// The port's clause: the value has the view of what it is made of.
    fn to_value(self, alloc: Global) -> Result<Value, AllocError>;
}

impl<T: Into<Value>> ToValue for T {
    fn to_value(self, _: Global) -> Result<Value, AllocError> {
        Ok(self.into())
    }
}

impl ToValue for &str {
    fn to_value(self, alloc: Global) -> Result<Value, AllocError> {
        Value::try_from_str(alloc, self)
    }
}

impl Value {
    /// The port's clause: `IfOk result (λ v. view v ≡ string text)`.
    pub fn try_from_str(alloc: Global, text: &str) -> Result<Value, AllocError> {
        let mut copy = String::new(alloc);
        copy.push_str(text)?;
        Ok(Value::String(copy))
    }

    /// Returns the text, as the port's `to_vec` does: without spaces.
    ///
    /// The port's clause: `IfOk result (λ b. has_float (view S) ≡ false → b.items ≡ compact_text
    /// (view S))`.
    pub fn try_to_vec(&self, alloc: Global) -> Result<Vec<u8>, AllocError> {
        let mut text = Vec::new(alloc);
        self.write(&mut text)?;
        Ok(text)
    }

    fn write(&self, out: &mut Vec<u8>) -> Result<(), AllocError> {
        match self {
            Value::Null => out.extend_from_slice(b"null"),
            Value::Bool(true) => out.extend_from_slice(b"true"),
            Value::Bool(false) => out.extend_from_slice(b"false"),
            Value::Number(number) => {
                out.extend_from_slice(Buffer::new().format(*number).as_bytes())
            }
            Value::String(text) => write_text(out, text),
            Value::Array(items) => write_items(out, items),
            Value::Object(members) => write_members(out, members),
        }
    }
}

/// Writes `[1,2]`.
fn write_items(out: &mut Vec<u8>, items: &[Value]) -> Result<(), AllocError> {
    out.push(b'[')?;
    for (place, item) in items.iter().enumerate() {
        if place > 0 {
            out.push(b',')?;
        }
        item.write(out)?;
    }
    Ok(out.push(b']')?)
}

/// Writes `{"a":1,"b":2}`.
fn write_members(out: &mut Vec<u8>, members: &Map<String, Value>) -> Result<(), AllocError> {
    out.push(b'{')?;
    for (place, (key, value)) in members.0.iter().enumerate() {
        if place > 0 {
            out.push(b',')?;
        }
        write_text(out, key)?;
        out.push(b':')?;
        value.write(out)?;
    }
    Ok(out.push(b'}')?)
}

/// Writes a text between quotes.
///
/// The port's clause: `escape ≡ flat_map escape_byte`, where quotes, backslashes and control
/// characters are escaped as briefly as JSON allows.
fn write_text(out: &mut Vec<u8>, text: &str) -> Result<(), AllocError> {
    out.push(b'"')?;
    for byte in text.bytes() {
        let letter = match byte {
            b'"' | b'\\' => byte,
            0x08 => b'b',
            0x0c => b'f',
            b'\n' => b'n',
            b'\r' => b'r',
            b'\t' => b't',
            0..0x20 => {
                let digits = b"0123456789abcdef";
                out.extend_from_slice(b"\\u00")?;
                out.push(digits[usize::from(byte / 16)])?;
                out.push(digits[usize::from(byte % 16)])?;
                continue;
            }
            _ => {
                out.push(byte)?;
                continue;
            }
        };
        out.extend_from_slice(&[b'\\', letter])?;
    }
    Ok(out.push(b'"')?)
}

/// The port's `json!`, for an object whose keys are literals. It returns a `Result`; a `?` in a
/// value leaves the caller.
macro_rules! json {
    (in $alloc:expr; {$($key:literal: $value:expr),+ $(,)?}) => {
        'json: {
            use $crate::shim::serde_json::{Map, ToValue, Value, put};
            let mut members = Map::new($alloc);
            $(
                let value = $value;
                let added = match ToValue::to_value(value, $alloc) {
                    Ok(value) => put(&mut members, $alloc, $key, value),
                    Err(refused) => Err(refused),
                };
                if let Err(refused) = added {
                    break 'json Err(refused);
                }
            )+
            Ok(Value::Object(members))
        }
    };
}
pub(crate) use json;
