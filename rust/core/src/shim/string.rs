//! `String`, whose every allocation can fail, and `format!`.

use super::alloc::{AllocError, Global};
use std::fmt;
use std::ops::Deref;

/// A text on the heap.
#[derive(PartialEq, Eq)]
pub struct String(pub(super) std::string::String);

impl String {
    /// Rattle's clause: `string_bytes result ≡ []`. It allocates nothing.
    #[inline]
    pub fn new(_: Global) -> String {
        String(std::string::String::new())
    }

    /// Rattle's clause: the bytes of `S'` are `S ++ text`, or those of `S` if the result is an
    /// error.
    pub fn push_str(&mut self, text: &str) -> Result<(), AllocError> {
        self.0.try_reserve(text.len()).map_err(|_| AllocError)?;
        self.0.push_str(text);
        Ok(())
    }

    /// Rattle's clause: `result ≡ string_bytes S`.
    // The library has no use for it, and `ttd` has.
    #[allow(dead_code)]
    #[inline]
    pub fn as_str(&self) -> &str {
        &self.0
    }

    /// Rattle's clause: `result.items = self.items`. It allocates nothing.
    // The page's engine alone calls it.
    #[allow(dead_code)]
    pub fn into_bytes(self) -> super::Vec<u8> {
        super::Vec(self.0.into_bytes())
    }

    /// What `format!` calls. An error of a value's own `fmt` is an error here too.
    ///
    /// Rattle's clause: `IfOk result (λ s. string_bytes s ≡ the text of the values)`.
    pub fn format(alloc: Global, text: fmt::Arguments<'_>) -> Result<String, AllocError> {
        let mut out = String::new(alloc);
        fmt::Write::write_fmt(&mut out, text).map_err(|_| AllocError)?;
        Ok(out)
    }
}

impl fmt::Debug for String {
    /// Rattle's clause: it writes `debug_str (string_bytes S)`, as Rust does.
    fn fmt(&self, f: &mut fmt::Formatter<'_>) -> fmt::Result {
        self.0.fmt(f)
    }
}

impl fmt::Write for String {
    /// Rattle's clause: on success the bytes of `S'` are `S ++ text`.
    fn write_str(&mut self, text: &str) -> fmt::Result {
        self.push_str(text).map_err(|_| fmt::Error)
    }
}

impl Deref for String {
    type Target = str;

    /// Rattle's clause: `result ≡ string_bytes S`.
    #[inline]
    fn deref(&self) -> &str {
        &self.0
    }
}

/// Rattle's `format!(in alloc; "..")`, which returns a `Result`.
#[doc(hidden)]
#[macro_export]
macro_rules! format {
    (in $alloc:expr; $($text:tt)+) => {
        $crate::shim::String::format($alloc, ::core::format_args!($($text)+))
    };
}
pub use format;
