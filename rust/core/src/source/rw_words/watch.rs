//! The words of a watch channel's calls and replies.
// From crates/rw_words/src/watch.rt, with its contracts as comments. //+

//~ ghost use Rattle.std.specs.Prelude.{◌≡◌, ◌≢◌, ◌+◌, ◌≤◌, ◌++◌, ℕ, List, Ok, Option, Some, false, find, length, option_map, take, true, IfSome};
//~ ghost use Rattle.std.specs.Str.{bytes_eq};
//~ ghost use Rattle.rw_lines.specs.Cut.{lacks};
//~ ghost use Rattle.rw_words.specs.Arguments.{joined_text, longest, rest_text};
//~ ghost use Rattle.rw_words.specs.Words.{HasSpelling, handle_in, or_fault, reading, spelling};
//~ ghost use Rattle.rw_words.specs.declared.arguments.WordFault.TheVariants.{WrongWord};
//~ ghost use Rattle.rw_words.specs.declared.watch.WatchCallWord.TheVariants as call_word;
//~ ghost use Rattle.rw_watch.specs.Shown.{waits};
//~ ghost use Rattle.rw_words.specs.WatchWords.{calls_table, call_parts, call_word_text, call_words, make_call};
//~ ghost use Rattle.rw_words.specs.WatchWords.{make_reply, replies_table, reply_parts, reply_word_text, reply_words};

use crate::source::rw_words::arguments::{
    Args, WordFault, alone, first_word, flag, handle, handle_alone, handle_value,
    handle_value_flag, number, value,
};
use crate::source::rw_words::writing::put_args;
use crate::source::rw_law::Payload;
use crate::source::rw_lines::put_bytes;
use crate::source::rw_watch::{WCall, WReply};

/// The first word of a call to a watch.
#[derive(Clone, Copy)]
pub(crate) enum WatchCallWord {
    Send,
    Changed,
    Update,
    Borrow,
    HasChanged,
    SendReplace,
    Modify,
    Subscribe,
    CloneSender,
    CloneReceiver,
    MarkChanged,
    MarkUnchanged,
    DropHandle,
    ReceiverCount,
    IsClosed,
    AwaitClosed,
}

impl WatchCallWord {
    /// Returns the word as text.
    pub(crate) fn text(self) -> &'static [u8]
//~         ensures { result.now ≡ call_word_text self }
    {
        match self {
            WatchCallWord::Send => b"send",
            WatchCallWord::Changed => b"changed",
            WatchCallWord::Update => b"update",
            WatchCallWord::Borrow => b"borrow",
            WatchCallWord::HasChanged => b"has-changed",
            WatchCallWord::SendReplace => b"send-replace",
            WatchCallWord::Modify => b"modify",
            WatchCallWord::Subscribe => b"subscribe",
            WatchCallWord::CloneSender => b"clone-sender",
            WatchCallWord::CloneReceiver => b"clone-receiver",
            WatchCallWord::MarkChanged => b"mark-changed",
            WatchCallWord::MarkUnchanged => b"mark-unchanged",
            WatchCallWord::DropHandle => b"drop",
            WatchCallWord::ReceiverCount => b"receiver-count",
            WatchCallWord::IsClosed => b"is-closed",
            WatchCallWord::AwaitClosed => b"closed",
        }
    }

    /// Returns the first of these words that has this text.
    fn among(words: &[WatchCallWord], token: &[u8]) -> Option<WatchCallWord>
//~         ensures { result ≡ find (λ w. bytes_eq (call_word_text w) token.now) words.now }
    {
        words.iter().copied().find(|word| word.text() == token)
    }

    /// Returns the word that has this text.
    fn of(token: &[u8]) -> Result<WatchCallWord, WordFault>
//~         ensures { result ≡ or_fault WrongWord (find (λ w. bytes_eq (call_word_text w) token.now) call_words) }
    {
        let words = [
            WatchCallWord::Send,
            WatchCallWord::Changed,
            WatchCallWord::Update,
            WatchCallWord::Borrow,
            WatchCallWord::HasChanged,
            WatchCallWord::SendReplace,
            WatchCallWord::Modify,
            WatchCallWord::Subscribe,
            WatchCallWord::CloneSender,
            WatchCallWord::CloneReceiver,
            WatchCallWord::MarkChanged,
            WatchCallWord::MarkUnchanged,
            WatchCallWord::DropHandle,
            WatchCallWord::ReceiverCount,
            WatchCallWord::IsClosed,
            WatchCallWord::AwaitClosed,
        ];
        WatchCallWord::among(&words, token).ok_or(WordFault::WrongWord)
    }

    /// Returns the call of this word, of its handle's text and of what follows that.
    fn read<V: Payload>(self, handle: &[u8], more: Option<&[u8]>) -> Result<WCall<V>, WordFault>
//~         requires { lacks 32 handle.now ≡ true }
//~         ensures { result ≡ make_call V.Payload self (Some (handle.now ++ rest_text (option_map (λ m. m.now) more.entry))) }
    {
        match self {
            WatchCallWord::Send => {
                let (handle, value) = handle_value(handle, more)?;
                Ok(WCall::Send(handle, value))
            }
            WatchCallWord::SendReplace => {
                let (handle, value) = handle_value(handle, more)?;
                Ok(WCall::SendReplace(handle, value))
            }
            WatchCallWord::Modify => {
                let (handle, (value, told)) = handle_value_flag(handle, more)?;
                Ok(WCall::Modify {
                    told,
                    handle,
                    value,
                })
            }
            _ => Ok(self.with_handle(handle_alone(handle, more)?)),
        }
    }

    /// Returns the call of this word with its handle. The word has no other argument.
    fn with_handle<V: Payload>(self, handle: u32) -> WCall<V>
//~         requires no_send { self ≢ call_word.Send }
//~         requires no_replace { self ≢ call_word.SendReplace }
//~         requires no_modify { self ≢ call_word.Modify }
//~         ensures made { (rest : Option (List ℕ)) → handle_in rest ≡ Ok handle → make_call V.Payload self rest ≡ Ok result }
    {
        match self {
            WatchCallWord::Changed => WCall::Changed(handle),
            WatchCallWord::Update => WCall::Update(handle),
            WatchCallWord::Borrow => WCall::Borrow(handle),
            WatchCallWord::HasChanged => WCall::HasChanged(handle),
            WatchCallWord::Subscribe => WCall::Subscribe(handle),
            WatchCallWord::CloneSender => WCall::CloneSender(handle),
            WatchCallWord::CloneReceiver => WCall::CloneReceiver(handle),
            WatchCallWord::MarkChanged => WCall::MarkChanged(handle),
            WatchCallWord::MarkUnchanged => WCall::MarkUnchanged(handle),
            WatchCallWord::DropHandle => WCall::DropHandle(handle),
            WatchCallWord::ReceiverCount => WCall::ReceiverCount(handle),
            WatchCallWord::IsClosed => WCall::IsClosed(handle),
            WatchCallWord::AwaitClosed => WCall::AwaitClosed(handle),
            WatchCallWord::Send | WatchCallWord::SendReplace | WatchCallWord::Modify => {
                unreachable!()
            }
        }
    }
}

/// Returns a call's word and arguments.
fn call_parts<V: Copy>(call: &WCall<V>) -> (WatchCallWord, Args<V>)
//~     ensures parts { result ≡ call_parts call.now }
//~     ensures short { length (call_word_text result.0) + longest result.1 ≤ 44 }
{
    match *call {
        WCall::Send(handle, value) => (WatchCallWord::Send, Args::HandleValue(handle, value)),
        WCall::Changed(handle) => (WatchCallWord::Changed, Args::Handle(handle)),
        WCall::Update(handle) => (WatchCallWord::Update, Args::Handle(handle)),
        WCall::Borrow(handle) => (WatchCallWord::Borrow, Args::Handle(handle)),
        WCall::HasChanged(handle) => (WatchCallWord::HasChanged, Args::Handle(handle)),
        WCall::SendReplace(handle, value) => (
            WatchCallWord::SendReplace,
            Args::HandleValue(handle, value),
        ),
        WCall::Modify {
            told,
            handle,
            value,
        } => (
            WatchCallWord::Modify,
            Args::HandleValueFlag(handle, value, told),
        ),
        WCall::Subscribe(handle) => (WatchCallWord::Subscribe, Args::Handle(handle)),
        WCall::CloneSender(handle) => (WatchCallWord::CloneSender, Args::Handle(handle)),
        WCall::CloneReceiver(handle) => (WatchCallWord::CloneReceiver, Args::Handle(handle)),
        WCall::MarkChanged(handle) => (WatchCallWord::MarkChanged, Args::Handle(handle)),
        WCall::MarkUnchanged(handle) => (WatchCallWord::MarkUnchanged, Args::Handle(handle)),
        WCall::DropHandle(handle) => (WatchCallWord::DropHandle, Args::Handle(handle)),
        WCall::ReceiverCount(handle) => (WatchCallWord::ReceiverCount, Args::Handle(handle)),
        WCall::IsClosed(handle) => (WatchCallWord::IsClosed, Args::Handle(handle)),
        WCall::AwaitClosed(handle) => (WatchCallWord::AwaitClosed, Args::Handle(handle)),
    }
}

/// The first word of a watch's reply.
#[derive(Clone, Copy, Debug)]
pub enum WatchReplyWord {
    Stored,
    Done,
    Value,
    Flag,
    NoReceivers,
    Old,
    Told,
    New,
    Closed,
    Count,
    Dropped,
    Unknown,
    Gone,
    WrongKind,
    TooManyHandles,
}

impl WatchReplyWord {
    /// Returns the word as text.
    pub(crate) fn text(self) -> &'static [u8]
//~         ensures { result.now ≡ reply_word_text self }
    {
        match self {
            WatchReplyWord::Stored => b"stored",
            WatchReplyWord::Done => b"done",
            WatchReplyWord::Value => b"value",
            WatchReplyWord::Flag => b"flag",
            WatchReplyWord::NoReceivers => b"no-receivers",
            WatchReplyWord::Old => b"old",
            WatchReplyWord::Told => b"told",
            WatchReplyWord::New => b"new",
            WatchReplyWord::Closed => b"closed",
            WatchReplyWord::Count => b"count",
            WatchReplyWord::Dropped => b"dropped",
            WatchReplyWord::Unknown => b"unknown",
            WatchReplyWord::Gone => b"gone",
            WatchReplyWord::WrongKind => b"wrong-kind",
            WatchReplyWord::TooManyHandles => b"too-many-handles",
        }
    }

    /// Returns the first of these words that has this text.
    fn among(words: &[WatchReplyWord], token: &[u8]) -> Option<WatchReplyWord>
//~         ensures { result ≡ find (λ w. bytes_eq (reply_word_text w) token.now) words.now }
    {
        words.iter().copied().find(|word| word.text() == token)
    }

    /// Returns the word that has this text.
    pub(crate) fn of(token: &[u8]) -> Option<WatchReplyWord>
//~         ensures { result ≡ find (λ w. bytes_eq (reply_word_text w) token.now) reply_words }
    {
        let words = [
            WatchReplyWord::Stored,
            WatchReplyWord::Done,
            WatchReplyWord::Value,
            WatchReplyWord::Flag,
            WatchReplyWord::NoReceivers,
            WatchReplyWord::Old,
            WatchReplyWord::Told,
            WatchReplyWord::New,
            WatchReplyWord::Closed,
            WatchReplyWord::Count,
            WatchReplyWord::Dropped,
            WatchReplyWord::Unknown,
            WatchReplyWord::Gone,
            WatchReplyWord::WrongKind,
            WatchReplyWord::TooManyHandles,
        ];
        WatchReplyWord::among(&words, token)
    }

    /// Returns the reply of this word and of what follows it.
    fn read<V: Payload>(self, rest: Option<&[u8]>) -> Result<WReply<V>, WordFault>
//~         ensures { result ≡ make_reply V.Payload self (option_map (λ r. r.now) rest.entry) }
    {
        match self {
            WatchReplyWord::Stored => alone(rest, WReply::Stored),
            WatchReplyWord::Done => alone(rest, WReply::Done),
            WatchReplyWord::Value => Ok(WReply::Value(value(rest)?)),
            WatchReplyWord::Flag => Ok(WReply::Flag(flag(rest)?)),
            WatchReplyWord::NoReceivers => Ok(WReply::NoReceivers(value(rest)?)),
            WatchReplyWord::Old => Ok(WReply::Old(value(rest)?)),
            WatchReplyWord::Told => Ok(WReply::Told(flag(rest)?)),
            WatchReplyWord::New => Ok(WReply::New(handle(rest)?)),
            WatchReplyWord::Closed => alone(rest, WReply::Closed),
            WatchReplyWord::Count => Ok(WReply::Count(number(rest)?)),
            WatchReplyWord::Dropped => alone(rest, WReply::Dropped),
            WatchReplyWord::Unknown => alone(rest, WReply::Unknown),
            WatchReplyWord::Gone => alone(rest, WReply::Gone),
            WatchReplyWord::WrongKind => alone(rest, WReply::WrongKind),
            WatchReplyWord::TooManyHandles => alone(rest, WReply::TooManyHandles),
        }
    }
}

/// Returns a reply's word and arguments. A reply that waits has none.
pub(crate) fn reply_parts<V: Copy>(reply: &WReply<V>) -> Option<(WatchReplyWord, Args<V>)>
//~     ensures parts { result ≡ reply_parts reply.now }
//~     ensures short { IfSome result (λ p. length (reply_word_text p.0) + longest p.1 ≤ 33) }
{
    match *reply {
        WReply::Stored => Some((WatchReplyWord::Stored, Args::Nothing)),
        WReply::Done => Some((WatchReplyWord::Done, Args::Nothing)),
        WReply::Value(value) => Some((WatchReplyWord::Value, Args::Value(value))),
        WReply::Flag(flag) => Some((WatchReplyWord::Flag, Args::Flag(flag))),
        WReply::NoReceivers(value) => Some((WatchReplyWord::NoReceivers, Args::Value(value))),
        WReply::Old(value) => Some((WatchReplyWord::Old, Args::Value(value))),
        WReply::Told(flag) => Some((WatchReplyWord::Told, Args::Flag(flag))),
        WReply::New(handle) => Some((WatchReplyWord::New, Args::Handle(handle))),
        WReply::Closed => Some((WatchReplyWord::Closed, Args::Nothing)),
        WReply::Count(n) => Some((WatchReplyWord::Count, Args::Number(n))),
        WReply::Dropped => Some((WatchReplyWord::Dropped, Args::Nothing)),
        WReply::Unknown => Some((WatchReplyWord::Unknown, Args::Nothing)),
        WReply::Gone => Some((WatchReplyWord::Gone, Args::Nothing)),
        WReply::WrongKind => Some((WatchReplyWord::WrongKind, Args::Nothing)),
        WReply::TooManyHandles => Some((WatchReplyWord::TooManyHandles, Args::Nothing)),
        WReply::Waits => None,
    }
}

/// Returns the call that a text spells.
//~ #[tactic(auto, unfolding(crate::specs::Words::reading), using(crate::proofs::WatchTables::call_without_handle))]
pub(crate) fn call_from<V: Payload>(text: &[u8]) -> Result<WCall<V>, WordFault>
//~     ensures { result ≡ reading (calls_table V.Payload) text.now }
{
    let (word, rest) = first_word(text);
    let word = WatchCallWord::of(word)?;
    let (handle, more) = first_word(rest.ok_or(WordFault::BadArguments)?);
    word.read(handle, more)
}

/// Returns the call that a word, a handle and what follows that spell.
//~ #[tactic(auto, using(crate::proofs::WordLaws::reading_joined))]
pub(crate) fn split_call_from<V: Payload>(
    word: &[u8],
    handle: &[u8],
    more: Option<&[u8]>,
) -> Result<WCall<V>, WordFault>
//~     requires word { lacks 32 word.now ≡ true }
//~     requires handle { lacks 32 handle.now ≡ true }
//~     ensures { result ≡ reading (calls_table V.Payload) (joined_text word.now handle.now (option_map (λ m. m.now) more.entry)) }
{
    WatchCallWord::of(word)?.read(handle, more)
}

/// Returns the reply that a text spells.
//~ #[tactic(auto, unfolding(crate::specs::Words::reading))]
pub(crate) fn reply_from<V: Payload>(text: &[u8]) -> Result<WReply<V>, WordFault>
//~     ensures { result ≡ reading (replies_table V.Payload) text.now }
{
    let (word, rest) = first_word(text);
    let Some(word) = WatchReplyWord::of(word) else {
        return Err(WordFault::WrongWord);
    };
    word.read(rest)
}

/// Writes a call's text at an index, and returns the index after it.
pub(crate) fn put_call<V: Payload>(out: &mut [u8; 256], at: usize, call: &WCall<V>) -> usize
//~     requires { at + 44 ≤ 256 }
//~     ensures within { result ≤ at + 44 }
//~     ensures text { take result out.new ≡ take at out.old ++ spelling V.Payload (calls_table V.Payload) call.now }
//~     ensures spelled { HasSpelling V.Payload (calls_table V.Payload) call.now }
{
    let (word, args) = call_parts(call);
    let at = put_bytes(out, at, word.text());
    put_args(out, at, &args)
}

/// Writes the text of a reply that doesn't wait at an index, and returns the index after it.
pub(crate) fn put_reply<V: Payload>(out: &mut [u8; 256], at: usize, reply: &WReply<V>) -> usize
//~     requires room { at + 33 ≤ 256 }
//~     requires recorded { waits reply.now ≡ false }
//~     ensures within { result ≤ at + 33 }
//~     ensures text { take result out.new ≡ take at out.old ++ spelling V.Payload (replies_table V.Payload) reply.now }
//~     ensures spelled { HasSpelling V.Payload (replies_table V.Payload) reply.now }
{
    match reply_parts(reply) {
        None => unreachable!(),
        Some((word, args)) => {
            let at = put_bytes(out, at, word.text());
            put_args(out, at, &args)
        }
    }
}
