//! Tokens of a line.
// From crates/rw_lines/src/tokens.rt, with its contracts as comments. //+

//~ ghost use Rattle.std.specs.Prelude.{◌≡◌, ◌==◌, ◌||◌, position, option_map};
//~ ghost use Rattle.std.specs.Char.{is_ascii_lowercase, is_ascii_digit};
//~ ghost use Rattle.std.specs.List.{list_all};
//~ ghost use Rattle.rw_lines.specs.Cut.{cut};
//~ ghost use Rattle.rw_lines.specs.Tokens.{is_word, is_name};

#[inline]
fn index_of(bytes: &[u8], mark: u8) -> Option<usize>
//~     ensures { result ≡ position (λ b. b == mark) bytes.now }
{
    bytes.iter().position(|b| *b == mark)
}

/// Returns what is before the first such byte, and what is after it, or `None` where there is no such byte.
///
/// A cut at a space gives the first token of a line and the rest. A cut at LF gives the first line and the rest.
#[inline]
//~ #[tactic(auto, using(crate::proofs::CutLaws::cut_none, crate::proofs::CutLaws::cut_some))]
pub fn cut(bytes: &[u8], mark: u8) -> Option<(&[u8], &[u8])>
//~     ensures { option_map (λ p. (p.0.now, p.1.now)) result ≡ cut mark bytes.now }
{
    match index_of(bytes, mark) {
        None => None,
        Some(at) => Some((&bytes[..at], &bytes[at + 1..])),
    }
}

fn has_word_bytes(token: &[u8]) -> bool
//~     ensures { result ≡ list_all (λ b. is_ascii_lowercase b || b == 45) token.now }
{
    token.iter().all(|b| b.is_ascii_lowercase() || *b == b'-')
}

/// Whether a token is a word: one or more bytes, each a to z or `-`.
pub fn is_word(token: &[u8]) -> bool
//~     ensures { result ≡ is_word token.now }
{
    !token.is_empty() && has_word_bytes(token)
}

fn has_name_bytes(token: &[u8]) -> bool
//~     ensures { result ≡ list_all (λ b. is_ascii_lowercase b || is_ascii_digit b) token.now }
{
    token
        .iter()
        .all(|b| b.is_ascii_lowercase() || b.is_ascii_digit())
}

/// Whether a token is a name: a letter a to z, then at most 15 of a to z and 0 to 9. The token `as` isn't a name.
pub fn is_name(token: &[u8]) -> bool
//~     ensures { result ≡ is_name token.now }
{
    match token {
        [] => false,
        [first, rest @ ..] => {
            first.is_ascii_lowercase()
                && rest.len() <= 15
                && has_name_bytes(rest)
                && token != b"as".as_slice()
        }
    }
}
