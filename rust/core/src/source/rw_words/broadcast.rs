//! The words of a broadcast channel's calls and replies.
// From crates/rw_words/src/broadcast.rt, with its contracts as comments. //+

//~ ghost use Rattle.std.specs.Prelude.{◌≡◌, ◌≢◌, ◌+◌, ◌≤◌, ◌++◌, ℕ, List, Ok, Option, Some, false, find, length, option_map, take, true, IfSome};
//~ ghost use Rattle.std.specs.Str.{bytes_eq};
//~ ghost use Rattle.rw_lines.specs.Cut.{lacks};
//~ ghost use Rattle.rw_words.specs.Arguments.{joined_text, longest, rest_text};
//~ ghost use Rattle.rw_words.specs.Words.{HasSpelling, handle_in, or_fault, reading, spelling};
//~ ghost use Rattle.rw_words.specs.declared.arguments.WordFault.TheVariants.{WrongWord};
//~ ghost use Rattle.rw_words.specs.declared.broadcast.BroadcastCallWord.TheVariants as call_word;
//~ ghost use Rattle.rw_broadcast.specs.Shown.{waits};
//~ ghost use Rattle.rw_words.specs.BroadcastWords.{calls_table, call_parts, call_word_text, call_words, make_call};
//~ ghost use Rattle.rw_words.specs.BroadcastWords.{make_reply, replies_table, reply_parts, reply_word_text, reply_words};

use crate::source::rw_words::arguments::{
    Args, WordFault, alone, first_word, handle, handle_alone, handle_value, number, value,
};
use crate::source::rw_words::writing::put_args;
use crate::source::rw_broadcast::{BCall, BReply};
use crate::source::rw_law::Payload;
use crate::source::rw_lines::put_bytes;

/// The first word of a call to a broadcast.
#[derive(Clone, Copy)]
pub(crate) enum BroadcastCallWord {
    Send,
    TryRecv,
    Recv,
    Subscribe,
    CloneSender,
    Resubscribe,
    DropHandle,
    SenderLen,
    ReceiverCount,
    ReceiverLen,
    Downgrade,
    Upgrade,
    CloneWeak,
}

impl BroadcastCallWord {
    /// Returns the word as text.
    pub(crate) fn text(self) -> &'static [u8]
//~         ensures { result.now ≡ call_word_text self }
    {
        match self {
            BroadcastCallWord::Send => b"send",
            BroadcastCallWord::TryRecv => b"try-recv",
            BroadcastCallWord::Recv => b"recv",
            BroadcastCallWord::Subscribe => b"subscribe",
            BroadcastCallWord::CloneSender => b"clone-sender",
            BroadcastCallWord::Resubscribe => b"resubscribe",
            BroadcastCallWord::DropHandle => b"drop",
            BroadcastCallWord::SenderLen => b"sender-len",
            BroadcastCallWord::ReceiverCount => b"receiver-count",
            BroadcastCallWord::ReceiverLen => b"receiver-len",
            BroadcastCallWord::Downgrade => b"downgrade",
            BroadcastCallWord::Upgrade => b"upgrade",
            BroadcastCallWord::CloneWeak => b"clone-weak",
        }
    }

    /// Returns the first of these words that has this text.
    fn among(words: &[BroadcastCallWord], token: &[u8]) -> Option<BroadcastCallWord>
//~         ensures { result ≡ find (λ w. bytes_eq (call_word_text w) token.now) words.now }
    {
        words.iter().copied().find(|word| word.text() == token)
    }

    /// Returns the word that has this text.
    fn of(token: &[u8]) -> Result<BroadcastCallWord, WordFault>
//~         ensures { result ≡ or_fault WrongWord (find (λ w. bytes_eq (call_word_text w) token.now) call_words) }
    {
        let words = [
            BroadcastCallWord::Send,
            BroadcastCallWord::TryRecv,
            BroadcastCallWord::Recv,
            BroadcastCallWord::Subscribe,
            BroadcastCallWord::CloneSender,
            BroadcastCallWord::Resubscribe,
            BroadcastCallWord::DropHandle,
            BroadcastCallWord::SenderLen,
            BroadcastCallWord::ReceiverCount,
            BroadcastCallWord::ReceiverLen,
            BroadcastCallWord::Downgrade,
            BroadcastCallWord::Upgrade,
            BroadcastCallWord::CloneWeak,
        ];
        BroadcastCallWord::among(&words, token).ok_or(WordFault::WrongWord)
    }

    /// Returns the call of this word, of its handle's text and of what follows that.
    fn read<V: Payload>(self, handle: &[u8], more: Option<&[u8]>) -> Result<BCall<V>, WordFault>
//~         requires { lacks 32 handle.now ≡ true }
//~         ensures { result ≡ make_call V.Payload self (Some (handle.now ++ rest_text (option_map (λ m. m.now) more.entry))) }
    {
        match self {
            BroadcastCallWord::Send => {
                let (handle, value) = handle_value(handle, more)?;
                Ok(BCall::Send(handle, value))
            }
            _ => Ok(self.with_handle(handle_alone(handle, more)?)),
        }
    }

    /// Returns the call of this word with its handle. The word has no other argument.
    fn with_handle<V: Payload>(self, handle: u32) -> BCall<V>
//~         requires no_send { self ≢ call_word.Send }
//~         ensures made { (rest : Option (List ℕ)) → handle_in rest ≡ Ok handle → make_call V.Payload self rest ≡ Ok result }
    {
        match self {
            BroadcastCallWord::TryRecv => BCall::TryRecv(handle),
            BroadcastCallWord::Recv => BCall::Recv(handle),
            BroadcastCallWord::Subscribe => BCall::Subscribe(handle),
            BroadcastCallWord::CloneSender => BCall::CloneSender(handle),
            BroadcastCallWord::Resubscribe => BCall::Resubscribe(handle),
            BroadcastCallWord::DropHandle => BCall::DropHandle(handle),
            BroadcastCallWord::SenderLen => BCall::SenderLen(handle),
            BroadcastCallWord::ReceiverCount => BCall::ReceiverCount(handle),
            BroadcastCallWord::ReceiverLen => BCall::ReceiverLen(handle),
            BroadcastCallWord::Downgrade => BCall::Downgrade(handle),
            BroadcastCallWord::Upgrade => BCall::Upgrade(handle),
            BroadcastCallWord::CloneWeak => BCall::CloneWeak(handle),
            BroadcastCallWord::Send => unreachable!(),
        }
    }
}

/// Returns a call's word and arguments.
fn call_parts<V: Copy>(call: &BCall<V>) -> (BroadcastCallWord, Args<V>)
//~     ensures parts { result ≡ call_parts call.now }
//~     ensures short { length (call_word_text result.0) + longest result.1 ≤ 44 }
{
    match *call {
        BCall::Send(handle, value) => (BroadcastCallWord::Send, Args::HandleValue(handle, value)),
        BCall::TryRecv(handle) => (BroadcastCallWord::TryRecv, Args::Handle(handle)),
        BCall::Recv(handle) => (BroadcastCallWord::Recv, Args::Handle(handle)),
        BCall::Subscribe(handle) => (BroadcastCallWord::Subscribe, Args::Handle(handle)),
        BCall::CloneSender(handle) => (BroadcastCallWord::CloneSender, Args::Handle(handle)),
        BCall::Resubscribe(handle) => (BroadcastCallWord::Resubscribe, Args::Handle(handle)),
        BCall::DropHandle(handle) => (BroadcastCallWord::DropHandle, Args::Handle(handle)),
        BCall::SenderLen(handle) => (BroadcastCallWord::SenderLen, Args::Handle(handle)),
        BCall::ReceiverCount(handle) => (BroadcastCallWord::ReceiverCount, Args::Handle(handle)),
        BCall::ReceiverLen(handle) => (BroadcastCallWord::ReceiverLen, Args::Handle(handle)),
        BCall::Downgrade(handle) => (BroadcastCallWord::Downgrade, Args::Handle(handle)),
        BCall::Upgrade(handle) => (BroadcastCallWord::Upgrade, Args::Handle(handle)),
        BCall::CloneWeak(handle) => (BroadcastCallWord::CloneWeak, Args::Handle(handle)),
    }
}

/// The first word of a broadcast's reply.
#[derive(Clone, Copy, Debug)]
pub enum BroadcastReplyWord {
    Sent,
    Value,
    Empty,
    Lagged,
    NoReceivers,
    Closed,
    New,
    Dropped,
    Count,
    Unknown,
    Gone,
    WrongKind,
    TooManyHandles,
    NoSender,
}

impl BroadcastReplyWord {
    /// Returns the word as text.
    pub(crate) fn text(self) -> &'static [u8]
//~         ensures { result.now ≡ reply_word_text self }
    {
        match self {
            BroadcastReplyWord::Sent => b"sent",
            BroadcastReplyWord::Value => b"value",
            BroadcastReplyWord::Empty => b"empty",
            BroadcastReplyWord::Lagged => b"lagged",
            BroadcastReplyWord::NoReceivers => b"no-receivers",
            BroadcastReplyWord::Closed => b"closed",
            BroadcastReplyWord::New => b"new",
            BroadcastReplyWord::Dropped => b"dropped",
            BroadcastReplyWord::Count => b"count",
            BroadcastReplyWord::Unknown => b"unknown",
            BroadcastReplyWord::Gone => b"gone",
            BroadcastReplyWord::WrongKind => b"wrong-kind",
            BroadcastReplyWord::TooManyHandles => b"too-many-handles",
            BroadcastReplyWord::NoSender => b"no-sender",
        }
    }

    /// Returns the first of these words that has this text.
    fn among(words: &[BroadcastReplyWord], token: &[u8]) -> Option<BroadcastReplyWord>
//~         ensures { result ≡ find (λ w. bytes_eq (reply_word_text w) token.now) words.now }
    {
        words.iter().copied().find(|word| word.text() == token)
    }

    /// Returns the word that has this text.
    pub(crate) fn of(token: &[u8]) -> Option<BroadcastReplyWord>
//~         ensures { result ≡ find (λ w. bytes_eq (reply_word_text w) token.now) reply_words }
    {
        let words = [
            BroadcastReplyWord::Sent,
            BroadcastReplyWord::Value,
            BroadcastReplyWord::Empty,
            BroadcastReplyWord::Lagged,
            BroadcastReplyWord::NoReceivers,
            BroadcastReplyWord::Closed,
            BroadcastReplyWord::New,
            BroadcastReplyWord::Dropped,
            BroadcastReplyWord::Count,
            BroadcastReplyWord::Unknown,
            BroadcastReplyWord::Gone,
            BroadcastReplyWord::WrongKind,
            BroadcastReplyWord::TooManyHandles,
            BroadcastReplyWord::NoSender,
        ];
        BroadcastReplyWord::among(&words, token)
    }

    /// Returns the reply of this word and of what follows it.
    fn read<V: Payload>(self, rest: Option<&[u8]>) -> Result<BReply<V>, WordFault>
//~         ensures { result ≡ make_reply V.Payload self (option_map (λ r. r.now) rest.entry) }
    {
        match self {
            BroadcastReplyWord::Sent => Ok(BReply::Sent(number(rest)?)),
            BroadcastReplyWord::Value => Ok(BReply::Value(value(rest)?)),
            BroadcastReplyWord::Empty => alone(rest, BReply::Empty),
            BroadcastReplyWord::Lagged => Ok(BReply::Lagged(number(rest)?)),
            BroadcastReplyWord::NoReceivers => Ok(BReply::NoReceivers(value(rest)?)),
            BroadcastReplyWord::Closed => alone(rest, BReply::Closed),
            BroadcastReplyWord::New => Ok(BReply::New(handle(rest)?)),
            BroadcastReplyWord::Dropped => alone(rest, BReply::Dropped),
            BroadcastReplyWord::Count => Ok(BReply::Count(number(rest)?)),
            BroadcastReplyWord::Unknown => alone(rest, BReply::Unknown),
            BroadcastReplyWord::Gone => alone(rest, BReply::Gone),
            BroadcastReplyWord::WrongKind => alone(rest, BReply::WrongKind),
            BroadcastReplyWord::TooManyHandles => alone(rest, BReply::TooManyHandles),
            BroadcastReplyWord::NoSender => alone(rest, BReply::NoSender),
        }
    }
}

/// Returns a reply's word and arguments. A reply that waits has none.
pub(crate) fn reply_parts<V: Copy>(reply: &BReply<V>) -> Option<(BroadcastReplyWord, Args<V>)>
//~     ensures parts { result ≡ reply_parts reply.now }
//~     ensures short { IfSome result (λ p. length (reply_word_text p.0) + longest p.1 ≤ 33) }
{
    match *reply {
        BReply::Sent(n) => Some((BroadcastReplyWord::Sent, Args::Number(n))),
        BReply::Value(value) => Some((BroadcastReplyWord::Value, Args::Value(value))),
        BReply::Empty => Some((BroadcastReplyWord::Empty, Args::Nothing)),
        BReply::Lagged(n) => Some((BroadcastReplyWord::Lagged, Args::Number(n))),
        BReply::NoReceivers(value) => Some((BroadcastReplyWord::NoReceivers, Args::Value(value))),
        BReply::Closed => Some((BroadcastReplyWord::Closed, Args::Nothing)),
        BReply::New(handle) => Some((BroadcastReplyWord::New, Args::Handle(handle))),
        BReply::Dropped => Some((BroadcastReplyWord::Dropped, Args::Nothing)),
        BReply::Count(n) => Some((BroadcastReplyWord::Count, Args::Number(n))),
        BReply::Unknown => Some((BroadcastReplyWord::Unknown, Args::Nothing)),
        BReply::Gone => Some((BroadcastReplyWord::Gone, Args::Nothing)),
        BReply::WrongKind => Some((BroadcastReplyWord::WrongKind, Args::Nothing)),
        BReply::TooManyHandles => Some((BroadcastReplyWord::TooManyHandles, Args::Nothing)),
        BReply::NoSender => Some((BroadcastReplyWord::NoSender, Args::Nothing)),
        BReply::Waits => None,
    }
}

/// Returns the call that a text spells.
//~ #[tactic(auto, unfolding(crate::specs::Words::reading), using(crate::proofs::BroadcastTables::call_without_handle))]
pub(crate) fn call_from<V: Payload>(text: &[u8]) -> Result<BCall<V>, WordFault>
//~     ensures { result ≡ reading (calls_table V.Payload) text.now }
{
    let (word, rest) = first_word(text);
    let word = BroadcastCallWord::of(word)?;
    let (handle, more) = first_word(rest.ok_or(WordFault::BadArguments)?);
    word.read(handle, more)
}

/// Returns the call that a word, a handle and what follows that spell.
//~ #[tactic(auto, using(crate::proofs::WordLaws::reading_joined))]
pub(crate) fn split_call_from<V: Payload>(
    word: &[u8],
    handle: &[u8],
    more: Option<&[u8]>,
) -> Result<BCall<V>, WordFault>
//~     requires word { lacks 32 word.now ≡ true }
//~     requires handle { lacks 32 handle.now ≡ true }
//~     ensures { result ≡ reading (calls_table V.Payload) (joined_text word.now handle.now (option_map (λ m. m.now) more.entry)) }
{
    BroadcastCallWord::of(word)?.read(handle, more)
}

/// Returns the reply that a text spells.
//~ #[tactic(auto, unfolding(crate::specs::Words::reading))]
pub(crate) fn reply_from<V: Payload>(text: &[u8]) -> Result<BReply<V>, WordFault>
//~     ensures { result ≡ reading (replies_table V.Payload) text.now }
{
    let (word, rest) = first_word(text);
    let Some(word) = BroadcastReplyWord::of(word) else {
        return Err(WordFault::WrongWord);
    };
    word.read(rest)
}

/// Writes a call's text at an index, and returns the index after it.
pub(crate) fn put_call<V: Payload>(out: &mut [u8; 256], at: usize, call: &BCall<V>) -> usize
//~     requires { at + 44 ≤ 256 }
//~     ensures within { result ≤ at + 44 }
//~     ensures text { take result out.new ≡ take at out.old ++ spelling V.Payload (calls_table V.Payload) call.now }
//~     ensures spelled { HasSpelling V.Payload (calls_table V.Payload) call.now }
{
    let (word, args) = call_parts(call);
    let at = put_bytes(out, at, word.text());
    put_args(out, at, &args)
}

/// Writes the text of a reply that doesn't wait at an index, and returns the index after it.
pub(crate) fn put_reply<V: Payload>(out: &mut [u8; 256], at: usize, reply: &BReply<V>) -> usize
//~     requires room { at + 33 ≤ 256 }
//~     requires recorded { waits reply.now ≡ false }
//~     ensures within { result ≤ at + 33 }
//~     ensures text { take result out.new ≡ take at out.old ++ spelling V.Payload (replies_table V.Payload) reply.now }
//~     ensures spelled { HasSpelling V.Payload (replies_table V.Payload) reply.now }
{
    match reply_parts(reply) {
        None => unreachable!(),
        Some((word, args)) => {
            let at = put_bytes(out, at, word.text());
            put_args(out, at, &args)
        }
    }
}
