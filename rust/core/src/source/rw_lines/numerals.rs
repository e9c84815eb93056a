//! Numbers in decimal.
// From crates/rw_lines/src/numerals.rt, with its contracts as comments. //+
use crate::shim::Vec; //+

//~ ghost use Rattle.std.specs.Prelude.{◌≡◌, ◌++◌, ◌^◌, ◌<◌, ℕ, IfSome, OnOk, OnErr, decimal};
//~ ghost use Rattle.rw_lines.specs.Numerals.{digits_in, numeral_in};

use crate::shim::itoa::Buffer;
use crate::shim::alloc::AllocError;

fn digits(token: &[u8]) -> Option<u64>
//~     ensures { result ≡ digits_in token.now }
{
    let mut n = 0u64;
    'each_digit: for digit in token {
        if !digit.is_ascii_digit() {
            return None;
        }
        n = n.checked_mul(10)?.checked_add(u64::from(*digit - b'0'))?;
    }
    Some(n)
}

/// Returns the number of a numeral: `0`, or digits with no 0 in front, below 2^64.
pub fn numeral(token: &[u8]) -> Option<u64>
//~     ensures exact { result ≡ numeral_in token.now }
    // A numeral is the decimal text of its number, and each number below 2^64 has no other numeral.
//~     ensures named { IfSome result (λ n. (token.now ≡ decimal n) × (n < 2 ^ 64)) }
//~     ensures only { (n : ℕ) → n < 2 ^ 64 → token.now ≡ decimal n → result ≡ Some n }
{
    match token {
        [] => None,
        [b'0', _, ..] => None,
        _ => digits(token),
    }
}

/// Appends a number in decimal. On `Err`, nothing was appended.
pub fn push_number(out: &mut Vec<u8>, n: u64) -> Result<(), AllocError>
//~     ensures ok { OnOk result (out.new.items ≡ out.old.items ++ decimal n) }
//~     ensures err { OnErr result (out.new.items ≡ out.old.items) }
{
    let mut buffer = Buffer::new();
    out.extend_from_slice(buffer.format(n).as_bytes())
}
