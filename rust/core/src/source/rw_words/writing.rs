//! Arguments written after a word.
// From crates/rw_words/src/writing.rt, with its contracts as comments. //+

//~ ghost use Rattle.std.specs.Prelude.{◌≡◌, ◌++◌, ◌+◌, ◌≤◌, ◌∷◌, decimal, length, take};
//~ ghost use Rattle.rw_words.specs.Arguments.{HasWord, IsWritable, args_text, flag_text, longest, rest_text};

use crate::source::rw_words::arguments::Args;
use crate::source::rw_law::Payload;
use crate::source::rw_lines::{put_bytes, put_number, put_small_number};

fn flag_text(flag: bool) -> &'static [u8]
//~     ensures text { result.now ≡ flag_text flag }
//~     ensures short { length result.now ≤ 3 }
{
    if flag { b"yes" } else { b"no" }
}

/// Returns the word of a value, from which the value can be read.
fn word_of<V: Payload>(value: V) -> u64
//~     ensures word { result ≡ V.word_of value }
//~     ensures known { HasWord V.Payload value }
{
    value.word()
}

/// Writes a number as an argument, after a space.
fn put_number_argument(out: &mut [u8; 256], at: usize, number: u64) -> usize
//~     requires { at + 21 ≤ 256 }
//~     ensures within { result ≤ at + 21 }
//~     ensures text { take result out.new ≡ take at out.old ++ 32 ∷ decimal number }
{
    let at = put_bytes(out, at, b" ");
    put_number(out, at, number)
}

/// Writes a handle as an argument, after a space.
fn put_handle_argument(out: &mut [u8; 256], at: usize, handle: u32) -> usize
//~     requires { at + 11 ≤ 256 }
//~     ensures within { result ≤ at + 11 }
//~     ensures text { take result out.new ≡ take at out.old ++ 32 ∷ decimal handle }
{
    let at = put_bytes(out, at, b" ");
    put_small_number(out, at, handle)
}

/// Writes a flag as an argument, after a space.
fn put_flag_argument(out: &mut [u8; 256], at: usize, flag: bool) -> usize
//~     requires { at + 4 ≤ 256 }
//~     ensures within { result ≤ at + 4 }
//~     ensures text { take result out.new ≡ take at out.old ++ 32 ∷ flag_text flag }
{
    let at = put_bytes(out, at, b" ");
    put_bytes(out, at, flag_text(flag))
}

/// Writes the arguments at an index, each after a space, and returns the index after them.
pub(crate) fn put_args<V: Payload>(out: &mut [u8; 256], at: usize, args: &Args<V>) -> usize
//~     requires { at + longest args.now ≤ 256 }
//~     ensures within { result ≤ at + longest args.now }
//~     ensures text { take result out.new ≡ take at out.old ++ rest_text (args_text V.Payload args.now) }
//~     ensures spelled { IsWritable V.Payload args.now }
{
    match *args {
        Args::Nothing => at,
        Args::Handle(handle) => put_handle_argument(out, at, handle),
        Args::Number(number) => put_number_argument(out, at, number),
        Args::Value(value) => put_number_argument(out, at, word_of(value)),
        Args::Flag(flag) => put_flag_argument(out, at, flag),
        Args::HandleValue(handle, value) => {
            let at = put_handle_argument(out, at, handle);
            put_number_argument(out, at, word_of(value))
        }
        Args::HandleValueFlag(handle, value, flag) => {
            let at = put_handle_argument(out, at, handle);
            let at = put_number_argument(out, at, word_of(value));
            put_flag_argument(out, at, flag)
        }
    }
}
