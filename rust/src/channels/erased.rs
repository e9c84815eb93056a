//! Values whose type has no bound, read as one of a type that is known: numbers, texts, and errors
//! that tests return.
#![allow(unsafe_code)]

#[cfg(feature = "debug_values")]
mod any_debug;
mod shown;

use crate::channels::cut::at_most;
pub(crate) use shown::is_showing;
use std::any::{self, Any, TypeId};
use std::error::Error;
use std::fmt::{self, Debug};
use std::hash::{BuildHasher, BuildHasherDefault, DefaultHasher};
use std::mem;
use std::rc::Rc;
use std::sync::{Arc, OnceLock};
use std::time::Duration;
use yovanelum_record::listed::PushAll;
use yovanelum_record::sorting::sort_by_key;

/// How many bytes the text of a text has at most.
const TEXT_BYTES: usize = 4096;

/// A value as one of any type. It says which, where no lifetime is in the type.
trait Erased {
    fn as_any(&self) -> &dyn Any
    where
        Self: 'static;
}

impl<T> Erased for T {
    fn as_any(&self) -> &dyn Any
    where
        Self: 'static,
    {
        self
    }
}

/// Gives a value to a function that may read it, as if all lifetimes in its type were `'static`.
///
/// # Safety
///
/// The function must neither keep nor return a reference into the value, not even a
/// `&'static str`: its real lifetime may be shorter.
unsafe fn read<T, R>(value: &T, read: impl FnOnce(&dyn Any) -> R) -> R {
    let erased: &dyn Erased = value;
    // SAFETY: both types are the same but for a lifetime, which no layout and no table of functions
    // depends on. The caller says that nothing is kept for longer than the value is borrowed here.
    let erased: &(dyn Erased + 'static) =
        unsafe { mem::transmute::<&dyn Erased, &(dyn Erased + 'static)>(erased) };
    read(erased.as_any())
}

/// A value whose type is known.
enum KnownValue<'a> {
    Value(&'a dyn Debug),
    Pair(&'a dyn Debug, &'a dyn Debug),
    List(&'a dyn shown::List),
    /// The text of a text is itself: a report has it in quotation marks.
    Text(&'a str),
}

impl KnownValue<'_> {
    fn text(self) -> String {
        match self {
            KnownValue::Value(value) => shown::start(format_args!("{value:?}")),
            KnownValue::Pair(one, other) => shown::start(format_args!("({one:?}, {other:?})")),
            KnownValue::List(list) => list.start(),
            KnownValue::Text(text) => at_most(text, TEXT_BYTES),
        }
    }
}

/// Reads a value as one of a few types.
type Reader = fn(&dyn Any) -> Option<KnownValue<'_>>;

/// Of each type, what has a value of it and pairs of it with another are known too. All of them
/// have one reader, since rustc compiles it for each of 19 types.
macro_rules! family {
    ($one:ident: $($whole:ty)*; $($other:ty)*) => {
        fn add_family<$one: Debug + 'static>(known: &mut KnownTypes) {
            let ids = [
                TypeId::of::<Vec<$one>>(),
                $(TypeId::of::<$whole>(),)*
                $(TypeId::of::<($one, $other)>()),*
            ];
            add(known, &ids, read_family::<$one>);
        }

        fn read_family<$one: Debug + 'static>(value: &dyn Any) -> Option<KnownValue<'_>> {
            if let Some(list) = value.downcast_ref::<Vec<$one>>() {
                return Some(KnownValue::List(list));
            }
            $(if let Some(value) = value.downcast_ref::<$whole>() {
                return Some(KnownValue::Value(value));
            })*
            $(if let Some((one, other)) = value.downcast_ref::<($one, $other)>() {
                return Some(KnownValue::Pair(one, other));
            })*
            None
        }
    };
}

family! { T: T Option<T> Arc<T>; u32 u64 usize i32 bool f64 String &'static str }

macro_rules! texts {
    ($($text:ty)*) => {
        fn add_texts(known: &mut KnownTypes) {
            add(known, &[$(TypeId::of::<$text>()),*], read_text);
        }

        fn read_text(value: &dyn Any) -> Option<KnownValue<'_>> {
            $(if let Some(text) = value.downcast_ref::<$text>() {
                return Some(KnownValue::Text(text));
            })*
            None
        }
    };
}

texts! { String &'static str Arc<str> Box<str> Arc<String> }

/// The types whose values have texts by themselves, in the order of their ids.
type KnownTypes = Vec<(TypeId, Reader)>;

fn add(known: &mut KnownTypes, ids: &[TypeId], reader: Reader) {
    known.push_all(ids.iter().map(|id| (*id, reader)));
}

fn known_types() -> KnownTypes {
    let mut known = KnownTypes::new();
    macro_rules! add_families {
        ($($one:ty)*) => {
            $(add_family::<$one>(&mut known);)*
        };
    }
    // A text is there twice, and is read as a text.
    add_texts(&mut known);
    add_families! {
        u8 u16 u32 u64 u128 usize i8 i16 i32 i64 i128 isize f32 f64 bool char Duration String
        &'static str
    }
    sort_by_key(&mut known, |(id, _)| *id);
    known
}

/// Returns what reads a value of this type.
fn reader_of(id: TypeId) -> Option<Reader> {
    static KNOWN: OnceLock<KnownTypes> = OnceLock::new();
    let known = KNOWN.get_or_init(known_types);
    let (of_type, reader) = known.get(known.partition_point(|(of_type, _)| *of_type < id))?;
    (*of_type == id).then_some(*reader)
}

/// Returns the text of a value, if its type is one of those that are known by themselves. Nothing
/// of the channel may be locked: where all types have texts, user code runs.
pub(crate) fn text_of<T>(value: &T) -> Option<String> {
    let text = known_text_of(value);
    #[cfg(feature = "debug_values")]
    let text = text.or_else(|| any_debug::text_of(value));
    text
}

/// Returns the text of a value whose type is known. No user code runs.
pub(crate) fn known_text_of<T>(value: &T) -> Option<String> {
    let read_text = |value: &dyn Any| {
        let reader = reader_of(value.type_id())?;
        Some(reader(value)?.text())
    };
    // SAFETY: the closure returns an owned `String`, and keeps no reference to the value.
    unsafe { read(value, read_text) }
}

/// What makes the text of a value that was cloned, once nothing is locked.
pub(crate) type LaterText<'a> = Box<dyn FnOnce() -> Option<String> + 'a>;

/// Clones a value whose type isn't known and which is locked, for its text.
#[cfg(feature = "debug_values")]
pub(crate) fn later_text_of<'a, T: 'a>(value: &T) -> Option<LaterText<'a>> {
    any_debug::later_text_of(value)
}

/// Types that aren't known have no texts in this build.
#[cfg(not(feature = "debug_values"))]
pub(crate) fn later_text_of<'a, T: 'a>(_value: &T) -> Option<LaterText<'a>> {
    None
}

/// Returns what a test prints of the error that it returns, if this is an `Err`. Of an error whose
/// type isn't known, that is nothing.
pub(crate) fn error_in<T>(output: &T) -> Option<String> {
    is_err(output).then(|| known_error_in(output).unwrap_or_default())
}

/// Whether what a test returns is an `Err`, of whatever type.
fn is_err<T>(output: &T) -> bool {
    let (like, own) = (any::type_name::<Result<(), ()>>(), any::type_name::<T>());
    let is_result = like
        .strip_suffix("()>")
        .is_some_and(|result| own.starts_with(result));
    // Which variant a value is can be read without a bound. It is hashed as its number.
    let hasher = BuildHasherDefault::<DefaultHasher>::default();
    let of_err = hasher.hash_one(mem::discriminant(&Err::<(), ()>(())));
    is_result && hasher.hash_one(mem::discriminant(output)) == of_err
}

fn known_error_in<T>(output: &T) -> Option<String> {
    let read_text = |output: &dyn Any| {
        let errors = [
            error_of::<Box<dyn Error>>(output),
            error_of::<Box<dyn Error + Send>>(output),
            error_of::<Box<dyn Error + Send + Sync>>(output),
            error_of::<Arc<dyn Error + Send + Sync>>(output),
            error_of::<Rc<dyn Error>>(output),
            error_of::<String>(output),
            error_of::<&'static str>(output),
            error_of::<std::io::Error>(output),
            error_of::<fmt::Error>(output),
            error_of::<crate::channels::broadcast::error::RecvError>(output),
            error_of::<crate::channels::broadcast::error::TryRecvError>(output),
            error_of::<crate::channels::watch::error::RecvError>(output),
        ];
        let error = errors.iter().find_map(|error| *error)?;
        Some(format!("{error:?}"))
    };
    // SAFETY: the closure returns an owned `String`, and keeps no reference to the value.
    unsafe { read(output, read_text) }
}

fn error_of<E: Debug + 'static>(output: &dyn Any) -> Option<&dyn Debug> {
    match output.downcast_ref::<Result<(), E>>() {
        Some(Err(error)) => Some(error),
        _ => None,
    }
}

#[cfg(test)]
mod tests {
    use super::*;

    #[test]
    fn values_of_known_types_have_texts_without_a_bound() {
        struct Own;
        let local = String::from("of this frame");
        let text = |text: &str| Some(text.to_string());
        assert_eq!(text_of(&7_u8), text("7"));
        assert_eq!(text_of(&local.as_str()), text("of this frame"));
        assert_eq!(text_of(&local), text("of this frame"));
        assert_eq!(text_of(&Arc::new(local)), text("of this frame"));
        assert_eq!(text_of(&Some("a".to_string())), text("Some(\"a\")"));
        assert_eq!(text_of(&vec![1_u8, 2]), text("[1, 2]"));
        assert_eq!(text_of(&("ACME", 101_u64)), text("(\"ACME\", 101)"));
        assert_eq!(text_of(&Own), None);
        assert_eq!(text_of(&Some(Own)), None);
        assert_eq!(text_of(&&7_u8), None);
    }

    #[test]
    fn a_large_value_is_formatted_up_to_a_limit() {
        let large = text_of(&vec![7_u8; 1 << 20]).unwrap();
        assert!(large.starts_with("[7, 7, 7, "), "{large}");
        assert!(large.ends_with("… (more than 256 bytes)"), "{large}");
        let text = "x".repeat(5000);
        assert_eq!(
            text_of(&text),
            Some(format!("{}… (5000 bytes)", "x".repeat(4096)))
        );
    }

    #[test]
    fn an_error_of_any_type_is_seen_without_a_bound() {
        // A `Result` of these two has no number of its variant in memory, but a null pointer.
        enum NoNumber {
            Missing(Box<u8>),
        }
        let (missing, seen) = (NoNumber::Missing(Box::new(1)), Some(String::new()));
        let NoNumber::Missing(number) = &missing;
        assert_eq!(error_in(&Err::<(), &u8>(number)), seen);
        assert_eq!(error_in(&Ok::<(), &u8>(())), None);
        assert_eq!(error_in(&Err::<(), NoNumber>(missing)), seen);
        assert_eq!(error_in(&Ok::<(), NoNumber>(())), None);
        assert_eq!(error_in(&Err::<(), u64>(7)), seen);
        assert_eq!(error_in(&Ok::<(), u64>(())), None);
        assert_eq!(error_in(&Err::<(), Vec<bool>>(vec![])), seen);
        assert_eq!(error_in(&Err::<(), ()>(())), seen);
        assert_eq!(error_in(&Ok::<(), ()>(())), None);
        // None of these is what a test returns.
        assert_eq!(error_in(&Err::<u64, u64>(7)), None);
        assert_eq!(error_in(&Some(())), None);
        assert_eq!(error_in(&std::ops::ControlFlow::<(), ()>::Break(())), None);
        assert_eq!(error_in(&Some(Err::<(), u64>(7))), None);
    }

    #[test]
    fn an_error_of_a_known_type_has_its_text_without_a_bound() {
        fn fails<'a>(text: &'a str) -> Result<(), Box<dyn Error + 'a>> {
            Err(text.into())
        }
        let text = |text: &str| Some(text.to_string());
        let local = String::from("no order");
        assert_eq!(error_in(&fails(&local)), text("\"no order\""));
        assert_eq!(error_in(&Err::<(), &str>(&local)), text("\"no order\""));
        let lagged = crate::channels::broadcast::error::RecvError::Lagged(1);
        assert_eq!(error_in(&Err::<(), _>(lagged)), text("Lagged(1)"));
        assert_eq!(error_in(&Ok::<(), String>(())), None);
        assert_eq!(error_in(&Err::<u32, String>(local)), None);
        assert_eq!(error_in(&()), None);
    }
}
