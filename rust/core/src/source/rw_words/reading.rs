//! Calls and replies as text.
// From crates/rw_words/src/reading.rt, with its contracts as comments. //+

//~ ghost use Rattle.std.specs.Prelude.{◌≡◌, Ok, IfOk, option_map, true};
//~ ghost use Rattle.rw_lines.specs.Cut.{lacks};
//~ ghost use Rattle.rw_world.specs.Kinds.{is_broadcast};
//~ ghost use Rattle.rw_words.specs.Arguments.{joined_text};
//~ ghost use Rattle.rw_words.specs.Texts.{CallOf, IsCall, IsReply, ReplyOf, call_in, call_text, reply_in, reply_text};

use crate::source::rw_words::arguments::WordFault;
use crate::source::rw_words::{broadcast, watch};
use crate::source::rw_law::Payload;
use crate::source::rw_world::{ChanCall, ChanReply, ChannelKind};

/// Returns the call that a text spells, in the words of this kind of channel: its word, its handle and its arguments, with one
/// space between them.
pub fn read_call<V: Payload>(kind: ChannelKind, text: &[u8]) -> Result<ChanCall<V>, WordFault>
    // The call that is read is spelled like this.
//~     ensures found { IfOk result (λ c. (text.now ≡ call_text V.Payload c) × IsCall V.Payload (is_broadcast kind) c) }
    // A call that is spelled like this is read.
//~     ensures only { (c : CallOf V) → IsCall V.Payload (is_broadcast kind) c → text.now ≡ call_text V.Payload c → result ≡ Ok c }
    // Which fault it is.
//~     ensures exact { result ≡ call_in V.Payload (is_broadcast kind) text.now }
{
    match kind {
        ChannelKind::Broadcast => Ok(ChanCall::B(broadcast::call_from(text)?)),
        ChannelKind::Watch => Ok(ChanCall::W(watch::call_from(text)?)),
    }
}

/// Returns the call of a text that was split already, in the words of this kind of channel: what `read_call` returns for the
/// word, the handle and what follows that, with one space between them.
pub fn read_split_call<V: Payload>(
    kind: ChannelKind,
    word: &[u8],
    handle: &[u8],
    more: Option<&[u8]>,
) -> Result<ChanCall<V>, WordFault>
//~     requires word { lacks 32 word.now ≡ true }
//~     requires handle { lacks 32 handle.now ≡ true }
//~     ensures { result ≡ call_in V.Payload (is_broadcast kind) (joined_text word.now handle.now (option_map (λ m. m.now) more.entry)) }
{
    match kind {
        ChannelKind::Broadcast => {
            Ok(ChanCall::B(broadcast::split_call_from(word, handle, more)?))
        }
        ChannelKind::Watch => Ok(ChanCall::W(watch::split_call_from(word, handle, more)?)),
    }
}

/// Returns the reply that a text spells, in the words of this kind of channel.
pub fn read_reply<V: Payload>(kind: ChannelKind, text: &[u8]) -> Result<ChanReply<V>, WordFault>
    // The reply that is read is spelled like this.
//~     ensures found { IfOk result (λ r. (text.now ≡ reply_text V.Payload r) × IsReply V.Payload (is_broadcast kind) r) }
    // A reply that is spelled like this is read.
//~     ensures only { (r : ReplyOf V) → IsReply V.Payload (is_broadcast kind) r → text.now ≡ reply_text V.Payload r → result ≡ Ok r }
    // Which fault it is.
//~     ensures exact { result ≡ reply_in V.Payload (is_broadcast kind) text.now }
{
    match kind {
        ChannelKind::Broadcast => Ok(ChanReply::B(broadcast::reply_from(text)?)),
        ChannelKind::Watch => Ok(ChanReply::W(watch::reply_from(text)?)),
    }
}
