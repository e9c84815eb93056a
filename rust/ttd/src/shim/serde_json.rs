//! What the sources use of the kit's port of `serde_json`, over `serde_json` itself: values,
//! `json!`, and their text.
//!
//! In a clause `view` is the value as contracts see it.

use super::alloc::{AllocError, Global};
use super::refused::without_refusals;
use super::string::String;
use super::vec::Vec;
use std::io;
use std::marker::PhantomData;
use std::mem;

/// A value of JSON.
#[derive(Debug)]
pub struct Value(::serde_json::Value);

/// The members of an object, in the order of their keys' bytes.
#[derive(Debug)]
pub struct Map<K, V>(
    ::serde_json::Map<std::string::String, ::serde_json::Value>,
    PhantomData<(K, V)>,
);

impl Map<String, Value> {
    /// The port's clause: `result.entries ≡ []`. It allocates nothing.
    pub fn new(_: Global) -> Map<String, Value> {
        Map(::serde_json::Map::new(), PhantomData)
    }
}

/// Sets a member. Where the map has to grow and is refused memory, the process ends: `serde_json`'s
/// has no `try_reserve`.
///
/// The port's clauses: `OnOk result (members_view map'.entries ≡ with_member key (view value)
/// (members_view map.entries))`, and on an error the map stays.
pub fn put(
    map: &mut Map<String, Value>,
    _: Global,
    key: &str,
    value: Value,
) -> Result<(), AllocError> {
    let key = copy(key)?;
    without_refusals(|| map.0.insert(key, value.0));
    Ok(())
}

/// Returns a copy of a text.
fn copy(text: &str) -> Result<std::string::String, AllocError> {
    let mut copy = std::string::String::new();
    copy.try_reserve_exact(text.len()).map_err(|_| AllocError)?;
    copy.push_str(text);
    Ok(copy)
}

impl From<u64> for Value {
    /// The port's clause: `view v ≡ number (unsigned x)`.
    fn from(number: u64) -> Value {
        Value(number.into())
    }
}

impl From<u32> for Value {
    /// The port's clause: `view v ≡ number (unsigned x)`.
    fn from(number: u32) -> Value {
        Value(number.into())
    }
}

impl From<bool> for Value {
    /// The port's clause: `view v ≡ boolean x`.
    fn from(truth: bool) -> Value {
        Value(truth.into())
    }
}

impl From<Vec<Value>> for Value {
    /// The port's clause: the view has the items' views, in their order. Rust collects them in the
    /// block in which they are, so nothing is allocated.
    fn from(mut items: Vec<Value>) -> Value {
        let items = mem::take(&mut items.0);
        Value(::serde_json::Value::Array(
            items.into_iter().map(|item| item.0).collect(),
        ))
    }
}

impl<T: Into<Value>> From<Option<T>> for Value {
    /// The port's clause: the view of the value, or `null` if there is none.
    fn from(value: Option<T>) -> Value {
        value.map_or(Value(::serde_json::Value::Null), T::into)
    }
}

/// What `json!` takes as a value.
pub trait ToValue {
    /// The port's clause: the value has the view of what it is made of.
    fn to_value(self, alloc: Global) -> Result<Value, AllocError>;
}

impl<T: Into<Value>> ToValue for T {
    fn to_value(self, _: Global) -> Result<Value, AllocError> {
        Ok(self.into())
    }
}

impl ToValue for &str {
    fn to_value(self, alloc: Global) -> Result<Value, AllocError> {
        Value::try_from_str(alloc, self)
    }
}

impl Value {
    /// The port's variant of an object, as the sources name it.
    #[allow(non_snake_case)]
    pub fn Object(members: Map<String, Value>) -> Value {
        Value(::serde_json::Value::Object(members.0))
    }

    /// The port's clause: `IfOk result (λ v. view v ≡ string text)`.
    pub fn try_from_str(_: Global, text: &str) -> Result<Value, AllocError> {
        Ok(Value(::serde_json::Value::String(copy(text)?)))
    }

    /// Returns the text, as the port's `to_vec` does: without spaces.
    ///
    /// The port's clause: `IfOk result (λ b. has_float (view S) ≡ false → b.items ≡ compact_text
    /// (view S))`.
    pub fn try_to_vec(&self, alloc: Global) -> Result<Vec<u8>, AllocError> {
        let mut text = Text {
            bytes: Vec::new(alloc),
            is_refused: false,
        };
        match ::serde_json::to_writer(&mut text, &self.0) {
            Ok(()) if !text.is_refused => Ok(text.bytes),
            _ => Err(AllocError),
        }
    }
}

/// What is written of a text. From a refusal on it takes bytes without keeping them: `serde_json`
/// would allocate for an error, and end the process where that is refused too.
struct Text {
    bytes: Vec<u8>,
    is_refused: bool,
}

impl io::Write for Text {
    fn write(&mut self, bytes: &[u8]) -> io::Result<usize> {
        self.is_refused = self.is_refused || self.bytes.extend_from_slice(bytes).is_err();
        Ok(bytes.len())
    }

    fn flush(&mut self) -> io::Result<()> {
        Ok(())
    }
}

/// The port's `json!`, for an object whose keys are literals. It returns a `Result`; a `?` in a
/// value leaves the caller. `serde_json`'s own can't be refused memory.
#[macro_export]
#[doc(hidden)]
macro_rules! json {
    (in $alloc:expr; {$($key:literal: $value:expr),+ $(,)?}) => {
        'json: {
            use $crate::shim::serde_json::{Map, ToValue, Value, put};
            let mut members = Map::new($alloc);
            $(
                let value = $value;
                let added = match ToValue::to_value(value, $alloc) {
                    Ok(value) => put(&mut members, $alloc, $key, value),
                    Err(refused) => Err(refused),
                };
                if let Err(refused) = added {
                    break 'json Err(refused);
                }
            )+
            Ok(Value::Object(members))
        }
    };
}
pub use json;
