//! What the sources use of the kit's port of `clap`, over `clap` itself. It is asked only what is
//! said of words that are refused, and of help.
//!
//! The port's contracts say nothing of texts, and here they are those of the version of `clap` that
//! is linked. `clap` allocates without an error: refused memory ends the process.

use super::alloc::{AllocError, Global};
use super::refused::without_refusals;
use super::string::String;
use error::ErrorKind;
use std::fmt;
use std::marker::PhantomData;

pub use ::clap::ArgAction;

/// The kinds of errors.
pub mod error {
    /// As much of the port's kinds as the sources name. The first isn't among `clap`'s, which
    /// returns no error where memory is refused.
    #[derive(Clone, Copy, Debug, PartialEq, Eq)]
    pub enum ErrorKind {
        /// Memory was refused.
        OutOfMemory,
        /// A word isn't expected.
        UnknownArgument,
        /// Any other kind.
        Other,
    }
}

/// An argument of a command.
#[derive(Debug)]
pub struct Arg<'a>(::clap::Arg, PhantomData<&'a str>);

impl<'a> Arg<'a> {
    /// The port's clauses: `result.id ≡ id`, and it has no rule.
    pub fn new(_: Global, id: &'a str) -> Arg<'a> {
        Arg(
            without_refusals(|| ::clap::Arg::new(id.to_owned())),
            PhantomData,
        )
    }

    fn with(self, change: impl FnOnce(::clap::Arg) -> ::clap::Arg) -> Arg<'a> {
        Arg(without_refusals(|| change(self.0)), PhantomData)
    }

    /// The port's clause: `result ≡ record S { required = required }`.
    pub fn required(self, required: bool) -> Arg<'a> {
        self.with(|arg| arg.required(required))
    }

    /// The port's clause: `result ≡ record S { action = Some action }`.
    pub fn action(self, action: ArgAction) -> Arg<'a> {
        self.with(|arg| arg.action(action))
    }

    /// The port's clause: `result ≡ record S { long = Some name }`.
    pub fn long(self, name: &'a str) -> Arg<'a> {
        self.with(|arg| arg.long(name.to_owned()))
    }

    /// The port's clause: `result ≡ record S { help = Some text }`.
    pub fn help(self, text: &'a str) -> Arg<'a> {
        self.with(|arg| arg.help(text.to_owned()))
    }
}

/// A command line, or a part of it with a name of its own.
#[derive(Debug)]
pub struct Command<'a>(::clap::Command, PhantomData<&'a str>);

impl<'a> Command<'a> {
    /// The port's clause: `(fields_of result).name ≡ name`.
    pub fn new(_: Global, name: &'a str) -> Command<'a> {
        let made = without_refusals(|| ::clap::Command::new(name.to_owned()));
        Command(made, PhantomData)
    }

    fn with(self, change: impl FnOnce(::clap::Command) -> ::clap::Command) -> Command<'a> {
        Command(without_refusals(|| change(self.0)), PhantomData)
    }

    /// The port's clause: `fields_of result ≡ record (fields_of S) { about = Some text }`.
    pub fn about(self, text: &'a str) -> Command<'a> {
        self.with(|command| command.about(text.to_owned()))
    }

    /// The port's clause: on success the fields are those of `S`, with this name.
    pub fn bin_name(self, name: &'a str) -> Result<Command<'a>, AllocError> {
        Ok(self.with(|command| command.bin_name(name)))
    }

    /// The port's clause:
    /// `fields_of result ≡ record (fields_of S) { subcommand_required = required }`.
    pub fn subcommand_required(self, required: bool) -> Command<'a> {
        self.with(|command| command.subcommand_required(required))
    }

    /// The port's clause: `IfOk result (λ r. AddsArg S arg r)`.
    pub fn arg(self, arg: Arg<'a>) -> Result<Command<'a>, AllocError> {
        Ok(self.with(|command| command.arg(arg.0)))
    }

    /// The port's clause: `IfOk result (λ r. AddsSubcommand S subcommand r)`.
    pub fn subcommand(self, subcommand: Command<'a>) -> Result<Command<'a>, AllocError> {
        Ok(self.with(|command| command.subcommand(subcommand.0)))
    }

    /// Reads words, the first of which is the program's name. The port's clauses say what it
    /// accepts and of what kind its errors are. That this is what `clap` does is tested.
    pub fn try_get_matches_from_mut(&mut self, words: &[String]) -> Result<ArgMatches, Error> {
        let words = words.iter().map(|word| word.as_str());
        match without_refusals(|| self.0.try_get_matches_from_mut(words)) {
            Ok(matches) => Ok(ArgMatches(matches)),
            Err(error) => Err(Error(error)),
        }
    }

    /// Returns an error with this text. The port has no clause of the text.
    pub fn error(&mut self, _: ErrorKind, text: &str) -> Result<Error, AllocError> {
        let kind = ::clap::error::ErrorKind::UnknownArgument;
        Ok(Error(without_refusals(|| self.0.error(kind, text))))
    }
}

/// What accepted words ask for. The sources don't look at it.
#[derive(Debug)]
pub struct ArgMatches(pub ::clap::ArgMatches);

/// Why words are refused, or the help that they ask for.
#[derive(Debug)]
pub struct Error(::clap::Error);

impl Error {
    /// The port's clause: `result ≡ kind_of S`.
    pub fn kind(&self) -> ErrorKind {
        match self.0.kind() {
            ::clap::error::ErrorKind::UnknownArgument => ErrorKind::UnknownArgument,
            _ => ErrorKind::Other,
        }
    }
}

impl fmt::Display for Error {
    /// Writes the text, without colours.
    fn fmt(&self, f: &mut fmt::Formatter<'_>) -> fmt::Result {
        without_refusals(|| self.0.fmt(f))
    }
}
