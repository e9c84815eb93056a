//! What follows a word.
// From crates/rw_words/src/arguments.rt, with its contracts as comments. //+

//~ ghost use Rattle.std.specs.Prelude.{◌≡◌, ◌++◌, ⊤, Some, option_map, true};
//~ ghost use Rattle.rw_lines.specs.Cut.{cut, lacks};
//~ ghost use Rattle.rw_words.specs.Arguments.{flag_named, rest_text, value_named};
//~ ghost use Rattle.rw_words.specs.Words.{when_alone, flag_in, handle_in, handle_value_flag_in, handle_value_in};
//~ ghost use Rattle.rw_words.specs.Words.{handle_within, first_part, number_in, rest_of, value_in};

use crate::source::rw_law::Payload;
use crate::source::rw_lines::{cut, numeral};
use crate::shim::alloc::AllocError;
//~ use thiserror::Error;

/// Why a text isn't a call or a reply: the first that holds, in this order.
#[derive(Clone, Copy, Debug, PartialEq, Eq/*~, Error~*/)]
pub enum WordFault {
    /// The first word isn't a word of the channel's kind.
//~     #[error("wrong word")]
    WrongWord,
    /// What follows the word isn't its arguments.
//~     #[error("bad arguments")]
    BadArguments,
    /// The handle's number is above 4,294,967,295. All else is valid.
//~     #[error("handle too large")]
    HandleTooLarge,
}

/// The arguments of a call or a reply.
#[derive(Copy)]
pub(crate) enum Args<V> {
    Nothing,
    Handle(u32),
    Number(u64),
    Value(V),
    Flag(bool),
    HandleValue(u32, V),
    HandleValueFlag(u32, V, bool),
}

//~ impl<V: Copy> Clone for Args<V> {
//~     ghost is_clone = { λ args copy. copy ≡ args };
//~
//~     ghost is_infallible = { λ _. ⊤ };
//~
//~     fn clone(&self) -> Result<Self, AllocError> {
//~         Ok(*self)
//~     }
//~ }

/// Returns the first word, and what follows the space after it.
pub fn first_word(text: &[u8]) -> (&[u8], Option<&[u8]>)
//~     ensures word { result.0.now ≡ first_part text.now (cut 32 text.now) }
//~     ensures rest { option_map (λ r. r.now) result.1 ≡ rest_of (cut 32 text.now) }
    // The word has no space, and with what follows it is the whole text.
//~     ensures apart { lacks 32 result.0.now ≡ true }
//~     ensures whole { text.now ≡ result.0.now ++ rest_text (option_map (λ r. r.now) result.1) }
{
    match cut(text, b' ') {
        None => (text, None),
        Some((word, rest)) => (word, Some(rest)),
    }
}

fn value_named<V: Payload>(text: &[u8]) -> Option<V>
//~     ensures { result ≡ value_named V.Payload text.now }
{
    V::from_word(numeral(text)?)
}

fn flag_named(text: &[u8]) -> Option<bool>
//~     ensures { result ≡ flag_named text.now }
{
    if text == b"yes".as_slice() {
        Some(true)
    } else if text == b"no".as_slice() {
        Some(false)
    } else {
        None
    }
}

/// Returns the thing, where nothing follows its word.
pub(crate) fn alone<T: Copy>(rest: Option<&[u8]>, thing: T) -> Result<T, WordFault>
//~     ensures { result ≡ when_alone (option_map (λ r. r.now) rest.entry) thing }
{
    match rest {
        None => Ok(thing),
        Some(_) => Err(WordFault::BadArguments),
    }
}

pub(crate) fn number(rest: Option<&[u8]>) -> Result<u64, WordFault>
//~     ensures { result ≡ number_in (option_map (λ r. r.now) rest.entry) }
{
    let text = rest.ok_or(WordFault::BadArguments)?;
    numeral(text).ok_or(WordFault::BadArguments)
}

pub(crate) fn value<V: Payload>(rest: Option<&[u8]>) -> Result<V, WordFault>
//~     ensures { result ≡ value_in V.Payload (option_map (λ r. r.now) rest.entry) }
{
    let text = rest.ok_or(WordFault::BadArguments)?;
    value_named(text).ok_or(WordFault::BadArguments)
}

pub(crate) fn flag(rest: Option<&[u8]>) -> Result<bool, WordFault>
//~     ensures { result ≡ flag_in (option_map (λ r. r.now) rest.entry) }
{
    let text = rest.ok_or(WordFault::BadArguments)?;
    flag_named(text).ok_or(WordFault::BadArguments)
}

fn handle_within(number: u64) -> Result<u32, WordFault>
//~     ensures { result ≡ handle_within number }
{
    u32::try_from(number).map_err(|_| WordFault::HandleTooLarge)
}

//~ #[tactic(auto, unfolding(crate::specs::Words::handle_in))]
pub(crate) fn handle(rest: Option<&[u8]>) -> Result<u32, WordFault>
//~     ensures { result ≡ handle_in (option_map (λ r. r.now) rest.entry) }
{
    handle_within(number(rest)?)
}

/// Returns the handle, where nothing follows it.
//~ #[tactic(auto, using(crate::proofs::ShapeLaws::handle_followed))]
pub(crate) fn handle_alone(handle: &[u8], more: Option<&[u8]>) -> Result<u32, WordFault>
//~     requires { lacks 32 handle.now ≡ true }
//~     ensures { result ≡ handle_in (Some (handle.now ++ rest_text (option_map (λ m. m.now) more.entry))) }
{
    match more {
        None => self::handle(Some(handle)),
        Some(_) => Err(WordFault::BadArguments),
    }
}

/// Returns the handle, and the value that follows it.
//~ #[tactic(auto, using(crate::proofs::ShapeLaws::handle_value_joined))]
pub(crate) fn handle_value<V: Payload>(
    handle: &[u8],
    more: Option<&[u8]>,
) -> Result<(u32, V), WordFault>
//~     requires { lacks 32 handle.now ≡ true }
//~     ensures { result ≡ handle_value_in V.Payload (Some (handle.now ++ rest_text (option_map (λ m. m.now) more.entry))) }
{
    let number = number(Some(handle))?;
    let value = value(more)?;
    Ok((handle_within(number)?, value))
}

/// Returns the handle, and the value and the flag that follow it.
//~ #[tactic(auto, using(crate::proofs::ShapeLaws::handle_value_flag_joined))]
pub(crate) fn handle_value_flag<V: Payload>(
    handle: &[u8],
    more: Option<&[u8]>,
) -> Result<(u32, (V, bool)), WordFault>
//~     requires { lacks 32 handle.now ≡ true }
//~     ensures { result ≡ handle_value_flag_in V.Payload (Some (handle.now ++ rest_text (option_map (λ m. m.now) more.entry))) }
{
    let number = number(Some(handle))?;
    let (value, flag) = first_word(more.ok_or(WordFault::BadArguments)?);
    let value = self::value(Some(value))?;
    let flag = self::flag(flag)?;
    Ok((handle_within(number)?, (value, flag)))
}
impl core::fmt::Display for WordFault { //+
    fn fmt(&self, f: &mut core::fmt::Formatter<'_>) -> core::fmt::Result { //+
        match self { //+
            WordFault::WrongWord => write!(f, "wrong word"), //+
            WordFault::BadArguments => write!(f, "bad arguments"), //+
            WordFault::HandleTooLarge => write!(f, "handle too large"), //+
        } //+
    } //+
} //+
impl core::error::Error for WordFault {} //+
impl<V: Copy> Clone for Args<V> { //+
    fn clone(&self) -> Self { //+
        *self //+
    } //+
} //+
