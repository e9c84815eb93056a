//! The first words of replies, of either kind of channel.
// From crates/rw_words/src/reply_word.rt, with its contracts as comments. //+

//~ ghost use Rattle.std.specs.Prelude.{◌≡◌, IfSome, IsSome};
//~ ghost use Rattle.rw_words.specs.declared.reply_word.ReplyWord.{ReplyWord};
//~ ghost use Rattle.rw_words.specs.Texts.{reply_text};
//~ ghost use Rattle.rw_words.specs.ReplyWords.{first_word, reply_word_in, reply_word_of, reply_word_text};

use crate::source::rw_words::broadcast::{self, BroadcastReplyWord};
use crate::source::rw_words::watch::{self, WatchReplyWord};
use crate::source::rw_law::Payload;
use crate::source::rw_world::ChanReply;

/// The first word of a reply. A word of both tables may be of either variant, since only its text counts.
#[derive(Clone, Copy, Debug)]
pub enum ReplyWord {
    Broadcast(BroadcastReplyWord),
    Watch(WatchReplyWord),
}

/// Returns the word that has this text, of the broadcast's table or else of the watch's.
fn word_in(token: &[u8]) -> Option<ReplyWord>
//~     ensures { result ≡ reply_word_in token.now }
{
    match BroadcastReplyWord::of(token) {
        Some(word) => Some(ReplyWord::Broadcast(word)),
        None => Some(ReplyWord::Watch(WatchReplyWord::of(token)?)),
    }
}

/// Returns the word of a reply, from the table of its kind. No value needs a word for it, as the reply's text does.
pub fn reply_word_of<V: Copy>(reply: &ChanReply<V>) -> Option<ReplyWord>
//~     ensures { result ≡ reply_word_of reply.now }
{
    match reply {
        ChanReply::B(reply) => {
            let (word, _) = broadcast::reply_parts(reply)?;
            Some(ReplyWord::Broadcast(word))
        }
        ChanReply::W(reply) => {
            let (word, _) = watch::reply_parts(reply)?;
            Some(ReplyWord::Watch(word))
        }
        ChanReply::NoChannel => None,
    }
}

impl ReplyWord {
    /// Returns the word that has this text, if a reply has it.
    pub fn of(token: &[u8]) -> Option<ReplyWord>
//~         ensures exact { result ≡ reply_word_in token.now }
//~         ensures found { IfSome result (λ word. reply_word_text word ≡ token.now) }
//~         ensures only { (word : ReplyWord) → reply_word_text word ≡ token.now → IsSome result }
    {
        word_in(token)
    }

    /// Returns the word of a reply. A reply that waits or strays has none.
    pub fn of_reply<V: Payload>(reply: &ChanReply<V>) -> Option<ReplyWord>
//~         ensures exact { result ≡ reply_word_of reply.now }
//~         ensures first { IfSome result (λ word. first_word (reply_text V.Payload reply.now) ≡ reply_word_text word) }
    {
        reply_word_of(reply)
    }

    /// Returns the word as text.
    pub fn text(self) -> &'static [u8]
//~         ensures { result.now ≡ reply_word_text self }
    {
        match self {
            ReplyWord::Broadcast(word) => word.text(),
            ReplyWord::Watch(word) => word.text(),
        }
    }
}
