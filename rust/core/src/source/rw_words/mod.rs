//! The words of calls and replies, and the lines of journal entries.
//!
//! The one contract: what is read is what would be written. `read_call` and `read_reply` accept exactly the spellings of calls
//! and of replies, return what they spell, and report the first fault of any other text. `write_entry` writes those spellings.
//! Start reading at `specs/Words.antt`, which defines what a table of words is. Continue with the two tables,
//! `specs/BroadcastWords.antt` and `specs/WatchWords.antt`, which define each word once for reading and writing.
//! What stands on it: `rw_navigator`, `rw_script`, `rw_text`.
//~ #![tactic(auto)]
// From crates/rw_words/src/lib.rt, with its contracts as comments. //+

mod arguments;
mod broadcast;
mod entries;
mod reading;
mod reply_word;
mod watch;
mod writing;

pub use arguments::{WordFault, first_word};
pub use entries::write_entry;
pub use reading::{read_call, read_reply, read_split_call};
pub use reply_word::{ReplyWord, reply_word_of};
