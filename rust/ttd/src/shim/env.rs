//! The words of the command line.

use super::alloc::{AllocError, Global};
use super::refused::without_refusals;
use super::rt::Env;
use super::string::String;
use super::vec::Vec;
use std::io::{self, ErrorKind};

/// The words of the command line, the program's name first.
#[derive(Debug)]
pub struct Args(Vec<String>);

/// Returns the words. One that isn't UTF-8 is an error, where Rust's iterator panics.
///
/// Rattle's has no clause. A comment there says that a word that isn't UTF-8 is an error, which has
/// the kind `InvalidData`. Refused memory has the kind `OutOfMemory`.
pub fn args<R: Env>(_: &R) -> io::Result<Args> {
    let given = without_refusals(std::env::args_os);
    let mut words = Vec::with_capacity(Global, given.len())?;
    for word in given {
        match word.into_string() {
            Ok(word) => words.push_reserved(String(word)),
            Err(_) => return Err(ErrorKind::InvalidData.into()),
        }
    }
    Ok(Args(words))
}

impl Args {
    /// Rattle's clause: `IfOk result (λ v. v.items ≡ words)`, in their order. Here nothing has to
    /// be allocated for it.
    pub fn collect(self, _: Global) -> Result<Vec<String>, AllocError> {
        Ok(self.0)
    }
}
