//! A stand-in for the kit's port of `clap`: it refuses all words, and repeats them. The program reads words by itself, and asks only what is
//! said of those that it refuses.

use super::alloc::{AllocError, Global};
use super::string::String;
use error::ErrorKind;
use std::fmt;
use std::marker::PhantomData;

/// The kinds of errors.
pub mod error {
    /// As much of the port's kinds as the sources name.
    #[derive(Clone, Copy, Debug, PartialEq, Eq)]
    pub enum ErrorKind {
        OutOfMemory,
        UnknownArgument,
    }
}

/// What an argument does.
pub enum ArgAction {
    Set,
    SetTrue,
}

/// An argument of a command.
pub struct Arg<'a>(PhantomData<&'a str>);

impl<'a> Arg<'a> {
    pub fn new(_: Global, _: &'a str) -> Arg<'a> {
        Arg(PhantomData)
    }

    pub fn required(self, _: bool) -> Arg<'a> {
        self
    }

    pub fn action(self, _: ArgAction) -> Arg<'a> {
        self
    }

    pub fn long(self, _: &'a str) -> Arg<'a> {
        self
    }

    pub fn help(self, _: &'a str) -> Arg<'a> {
        self
    }
}

/// A command line, or a part of it with a name of its own.
pub struct Command<'a>(Global, PhantomData<&'a str>);

impl<'a> Command<'a> {
    pub fn new(alloc: Global, _: &'a str) -> Command<'a> {
        Command(alloc, PhantomData)
    }

    pub fn about(self, _: &'a str) -> Command<'a> {
        self
    }

    pub fn bin_name(self, _: &'a str) -> Result<Command<'a>, AllocError> {
        Ok(self)
    }

    pub fn subcommand_required(self, _: bool) -> Command<'a> {
        self
    }

    pub fn arg(self, _: Arg<'a>) -> Result<Command<'a>, AllocError> {
        Ok(self)
    }

    pub fn subcommand(self, _: Command<'a>) -> Result<Command<'a>, AllocError> {
        Ok(self)
    }

    /// Refuses the words. An error of refused memory has no text.
    pub fn try_get_matches_from_mut(&mut self, words: &[String]) -> Result<(), Error> {
        Err(self.repeated(words).unwrap_or(Error(None)))
    }

    fn repeated(&self, words: &[String]) -> Result<Error, AllocError> {
        let mut text = String::new(self.0);
        text.push_str("refused:")?;
        for word in words {
            text.push_str(" ")?;
            text.push_str(word)?;
        }
        Ok(Error(Some(text)))
    }

    pub fn error(&mut self, _: ErrorKind, text: &str) -> Result<Error, AllocError> {
        let mut copy = String::new(self.0);
        copy.push_str(text)?;
        Ok(Error(Some(copy)))
    }
}

/// Why words are refused.
pub struct Error(Option<String>);

impl Error {
    pub fn kind(&self) -> ErrorKind {
        match self.0 {
            Some(_) => ErrorKind::UnknownArgument,
            None => ErrorKind::OutOfMemory,
        }
    }
}

impl fmt::Display for Error {
    fn fmt(&self, f: &mut fmt::Formatter<'_>) -> fmt::Result {
        self.0
            .as_ref()
            .map_or(Ok(()), |text| f.write_str(text.as_str()))
    }
}
