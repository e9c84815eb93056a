//! Lines from any reader, bytes to any writer, and the tokens and numerals that lines are made of.
//!
//! Sessions, scripts, journal texts and the console use these. The one contract is that no byte is lost or made up. The
//! clauses of `next_line` define exactly which bytes were read and which line they make, even where reading stops within a
//! line. Those of `put` define exactly which bytes were written, even where writing stops before the last.
//! Start reading at `specs/Lines.antt`, which defines the lines of bytes, and then at `lines.rt`.
//! What stands on it: `rw_blocks`, `rw_words`.
//~ #![tactic(auto)]
// From crates/rw_lines/src/lib.rt, with its contracts as comments. //+

mod bytes;
mod lines;
mod numerals;
mod streams;
mod tokens;

pub use bytes::{put_bytes, put_number, put_small_number};
pub use lines::{LONGEST_LINE, Next, NextShort, is_skipped, next_line, next_short_line};
pub use numerals::{numeral, push_number};
pub use streams::{ShortWrite, StreamFault, flush, next_byte, put, put_out, put_whole};
pub use tokens::{cut, is_name, is_word};
