//! What a line of a script says: a head line, or the fields of a step line and its call, where names may stand for handles.
// From crates/rw_script/src/said.rt, with its contracts as comments. //+

//~ ghost use Rattle.std.specs.Prelude.{◌≡◌, ◌++◌, option_map, false, true, IfOk, IfSome};
//~ ghost use Rattle.rw_world.specs.Channel.{strays_at};
//~ ghost use Rattle.rw_lines.specs.Cut.{lacks};
//~ ghost use Rattle.rw_words.specs.Arguments.{rest_text};
//~ ghost use Rattle.rw_script.specs.Fields.{bound_in, fields_in, handle_text, name_in, number_field, without_binding};
//~ ghost use Rattle.rw_script.specs.Script.{head_in};
//~ ghost use Rattle.rw_script.specs.StepLines.{said_by, said_in, said_of};
//~ ghost use Rattle.rw_words.specs.Words.{map_ok};

use crate::source::rw_script::faults::ScriptFaultKind;
use crate::source::rw_lines::{cut, is_name, is_word, numeral};
use crate::source::rw_words::{first_word, read_call, read_split_call};
use crate::source::rw_world::{ChanCall, ChannelKind};

/// A line at the head of a script: a word and a numeral.
#[derive(Clone, Copy)]
pub(crate) enum HeadLine {
    /// A channel line: a broadcast of this capacity.
    Broadcast(u64),
    /// A channel line: a watch of this value.
    Watch(u64),
    /// The line with the number of actors.
    Actors(u64),
}

impl HeadLine {
    /// Parses a line at the head.
//~     #[tactic(auto, unfolding(crate::specs::Script::head_in))]
    pub(crate) fn of(line: &[u8]) -> Option<HeadLine>
//~         ensures { result ≡ head_in line.now }
    {
        let (word, text) = cut(line, b' ')?;
        let number = numeral(text)?;
        if word == b"broadcast".as_slice() {
            Some(HeadLine::Broadcast(number))
        } else if word == b"watch".as_slice() {
            Some(HeadLine::Watch(number))
        } else if word == b"actors".as_slice() {
            Some(HeadLine::Actors(number))
        } else {
            None
        }
    }
}

/// Reads a numeral that a space follows, and returns its number and the rest.
//~ #[tactic(auto, unfolding(crate::specs::Fields::number_field))]
fn number_field(text: &[u8]) -> Option<(u64, &[u8])>
//~     ensures { option_map (λ p. (p.0, p.1.now)) result ≡ number_field text.now }
{
    let (token, rest) = cut(text, b' ')?;
    Some((numeral(token)?, rest))
}

/// Returns the actor and the channel of a step line, and the text of its call, split into its first word and what follows.
//~ #[tactic(auto, unfolding(crate::specs::Fields::fields_in))]
pub(crate) fn fields_of(line: &[u8]) -> Option<(u64, u64, &[u8], Option<&[u8]>)>
//~     ensures fields { option_map (λ p. (p.0, p.1, p.2.now ++ rest_text (option_map (λ r. r.now) p.3))) result ≡ fields_in line.now }
//~     ensures apart { IfSome result (λ p. lacks 32 p.2.now ≡ true) }
{
    let (actor, rest) = number_field(line)?;
    let (channel, text) = number_field(rest)?;
    let (word, rest) = first_word(text);
    if is_word(word) {
        Some((actor, channel, word, rest))
    } else {
        None
    }
}

/// A call that may name its handle, and may bind a name.
#[derive(Clone, Copy)]
pub(crate) struct SaidCall<'a> {
    /// The call. Its handle is 0 if a name stands for it.
    pub(crate) call: ChanCall<u64>,
    /// The name that stands for the handle.
    pub(crate) target: Option<&'a [u8]>,
    /// The name that the line binds.
    pub(crate) bound: Option<&'a [u8]>,
}

/// Returns the token if it is a name.
fn name_of(token: &[u8]) -> Option<&[u8]>
//~     ensures { option_map (λ n. n.now) result ≡ name_in token.now }
{
    if is_name(token) { Some(token) } else { None }
}

/// Returns the name that is bound, if just `as NAME` follows the handle.
fn bound_of(more: Option<&[u8]>) -> Option<&[u8]>
//~     ensures { option_map (λ n. n.now) result ≡ bound_in (option_map (λ m. m.now) more.entry) }
{
    let (word, name) = cut(more?, b' ')?;
    if word == b"as".as_slice() {
        name_of(name)
    } else {
        None
    }
}

/// Returns the handle's token, or `0` if it is a name.
fn handle_text(handle: &[u8]) -> &[u8]
//~     ensures text { result.now ≡ handle_text handle.now }
//~     ensures apart { lacks 32 handle.now ≡ true → lacks 32 result.now ≡ true }
{
    if is_name(handle) { b"0" } else { handle }
}

/// Returns what follows the handle, or nothing if that binds a name.
fn without_binding(more: Option<&[u8]>) -> Option<&[u8]>
//~     ensures { option_map (λ m. m.now) result ≡ without_binding (option_map (λ m. m.now) more.entry) }
{
    if bound_of(more).is_some() { None } else { more }
}

/// Returns a call with its names. Only a call that makes a handle may bind one.
fn said_by<'a>(
    target: Option<&'a [u8]>,
    bound: Option<&'a [u8]>,
    call: ChanCall<u64>,
) -> Result<SaidCall<'a>, ScriptFaultKind>
//~     ensures call { IfOk result (λ said. said.call ≡ call) }
//~     ensures said { map_ok said_of result ≡ said_by (option_map (λ n. n.now) target.entry) (option_map (λ n. n.now) bound.entry) call }
{
    if bound.is_some() && !call.makes() {
        return Err(ScriptFaultKind::BadArguments);
    }
    Ok(SaidCall {
        call,
        target,
        bound,
    })
}

/// Parses the text of a call, split into its word and what follows, in the words of this kind of channel.
//~ #[tactic(auto, unfolding(crate::specs::StepLines::said_in), using(crate::proofs::NamedLaws::named_joined, crate::proofs::NamedLaws::named_alone))]
pub(crate) fn read_said<'a>(
    kind: ChannelKind,
    word: &[u8],
    rest: Option<&'a [u8]>,
) -> Result<SaidCall<'a>, ScriptFaultKind>
//~     requires { lacks 32 word.now ≡ true }
//~     ensures said { map_ok said_of result ≡ said_in kind (word.now ++ rest_text (option_map (λ r. r.now) rest.entry)) }
//~     ensures kind { IfOk result (λ said. strays_at kind said.call ≡ false) }
{
    let Some(rest) = rest else {
        return said_by(None, None, read_call(kind, word)?);
    };
    let (handle, more) = first_word(rest);
    let call = read_split_call(kind, word, handle_text(handle), without_binding(more))?;
    said_by(name_of(handle), bound_of(more), call)
}
