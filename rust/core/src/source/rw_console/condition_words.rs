//! Conditions as text.
// From crates/rw_console/src/condition_words.rt, with its contracts as comments. //+

//~ ghost use Rattle.std.specs.Prelude.{◌≡◌, find, IfSome, IsSome};
//~ ghost use Rattle.std.specs.Str.{bytes_eq};
//~ ghost use Rattle.rw_navigator.specs.declared.worlds.condition.Cond.{Cond};
//~ ghost use Rattle.rw_console.specs.ConditionWords.{condition_in, condition_of_word, condition_text, condition_word_text};
//~ ghost use Rattle.rw_console.specs.ConditionWords.{condition_words, three_numbers_in, two_numbers_in, HasNumerals};

use crate::source::rw_lines::{cut, numeral};
use crate::source::rw_navigator::Cond;
use crate::source::rw_words::ReplyWord;

/// The word that a condition begins with.
#[derive(Clone, Copy)]
enum ConditionWord {
    Actor,
    Channel,
    Reply,
    Unread,
    Lagging,
    Unseen,
    Version,
    Closed,
    Queue,
}

impl ConditionWord {
    fn text(self) -> &'static [u8]
//~         ensures { result.now ≡ condition_word_text self }
    {
        match self {
            ConditionWord::Actor => b"actor",
            ConditionWord::Channel => b"channel",
            ConditionWord::Reply => b"reply",
            ConditionWord::Unread => b"unread",
            ConditionWord::Lagging => b"lagging",
            ConditionWord::Unseen => b"unseen",
            ConditionWord::Version => b"version",
            ConditionWord::Closed => b"closed",
            ConditionWord::Queue => b"queue",
        }
    }

    /// Returns the word that a token is, if it is one of these.
    fn among(words: &[ConditionWord], token: &[u8]) -> Option<ConditionWord>
//~         ensures { result ≡ find (λ w. bytes_eq (condition_word_text w) token.now) words.now }
    {
        words.iter().copied().find(|word| word.text() == token)
    }

    /// Returns the word that a token is, if it is one.
    fn of(token: &[u8]) -> Option<ConditionWord>
//~         ensures { result ≡ find (λ w. bytes_eq (condition_word_text w) token.now) condition_words }
    {
        let words = [
            ConditionWord::Actor,
            ConditionWord::Channel,
            ConditionWord::Reply,
            ConditionWord::Unread,
            ConditionWord::Lagging,
            ConditionWord::Unseen,
            ConditionWord::Version,
            ConditionWord::Closed,
            ConditionWord::Queue,
        ];
        ConditionWord::among(&words, token)
    }

    /// Parses the arguments of this word, and returns the condition.
    fn read(self, rest: &[u8]) -> Option<Cond>
//~         ensures { result ≡ condition_of_word self rest.now }
    {
        match self {
            ConditionWord::Actor => Some(Cond::Actor(numeral(rest)?)),
            ConditionWord::Channel => Some(Cond::Channel(numeral(rest)?)),
            ConditionWord::Reply => Some(Cond::ReplyKind(ReplyWord::of(rest)?)),
            ConditionWord::Unread => {
                let (channel, handle, count) = three_numbers(rest)?;
                Some(Cond::UnreadAtLeast {
                    channel,
                    handle,
                    count,
                })
            }
            ConditionWord::Lagging => {
                let (channel, handle) = two_numbers(rest)?;
                Some(Cond::Lagging { channel, handle })
            }
            ConditionWord::Unseen => {
                let (channel, handle) = two_numbers(rest)?;
                Some(Cond::Unseen { channel, handle })
            }
            ConditionWord::Version => {
                let (channel, version) = two_numbers(rest)?;
                Some(Cond::VersionAtLeast { channel, version })
            }
            ConditionWord::Closed => Some(Cond::Closed(numeral(rest)?)),
            ConditionWord::Queue => {
                let (channel, count) = two_numbers(rest)?;
                Some(Cond::QueueAtLeast { channel, count })
            }
        }
    }
}

fn two_numbers(text: &[u8]) -> Option<(u64, u64)>
//~     ensures { result ≡ two_numbers_in text.now }
{
    let (first, second) = cut(text, b' ')?;
    Some((numeral(first)?, numeral(second)?))
}

fn three_numbers(text: &[u8]) -> Option<(u64, u64, u64)>
//~     ensures { result ≡ three_numbers_in text.now }
{
    let (first, rest) = cut(text, b' ')?;
    let first = numeral(first)?;
    let (second, third) = two_numbers(rest)?;
    Some((first, second, third))
}

//~ #[tactic(auto, unfolding(crate::specs::ConditionWords::condition_in))]
fn condition_from(text: &[u8]) -> Option<Cond>
//~     ensures { result ≡ condition_in text.now }
{
    let (word, rest) = cut(text, b' ')?;
    ConditionWord::of(word)?.read(rest)
}

/// Parses a condition: its word and its arguments, with one space between them.
pub fn condition_of(text: &[u8]) -> Option<Cond>
    // If a condition is returned, the text is exactly that condition's text.
//~     ensures found { IfSome result (λ cond. (text.now ≡ condition_text cond) × HasNumerals cond) }
    // The text of any condition is accepted.
//~     ensures only { (cond : Cond) → HasNumerals cond → text.now ≡ condition_text cond → IsSome result }
//~     ensures exact { result ≡ condition_in text.now }
{
    condition_from(text)
}
