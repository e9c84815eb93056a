//! Bytes written to an array.
// From crates/rw_lines/src/bytes.rt, with its contracts as comments. //+

//~ ghost use Rattle.std.specs.Prelude.{◌≡◌, ◌++◌, ◌+◌, ◌≤◌, length, take, decimal};

use crate::shim::itoa::Buffer;

/// Writes bytes at an index, and returns the index after them.
#[inline]
pub fn put_bytes(out: &mut [u8; 256], at: usize, bytes: &[u8]) -> usize
//~     requires { at + length bytes.now ≤ 256 }
//~     ensures end { result ≡ at + length bytes.now }
//~     ensures text { take result out.new ≡ take at out.old ++ bytes.now }
{
    let end = at + bytes.len();
    out[at..end].copy_from_slice(bytes);
    end
}

/// Writes a 64-bit number in decimal at an index, and returns the index after it.
#[inline]
pub fn put_number(out: &mut [u8; 256], at: usize, n: u64) -> usize
//~     requires { at + 20 ≤ 256 }
//~     ensures within { result ≤ at + 20 }
//~     ensures text { take result out.new ≡ take at out.old ++ decimal n }
{
    let mut buffer = Buffer::new();
    put_bytes(out, at, buffer.format(n).as_bytes())
}

/// Writes a 32-bit number in decimal at an index, and returns the index after it.
#[inline]
pub fn put_small_number(out: &mut [u8; 256], at: usize, n: u32) -> usize
//~     requires { at + 10 ≤ 256 }
//~     ensures within { result ≤ at + 10 }
//~     ensures text { take result out.new ≡ take at out.old ++ decimal n }
{
    let mut digits = Buffer::new();
    put_bytes(out, at, digits.format(n).as_bytes())
}
