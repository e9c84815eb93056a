//! The words of the command line.
// From crates/rw_program/src/words.rt, with its contracts as comments. //+
use crate::shim::String; //+

//~ ghost use Rattle.std.specs.Prelude.{◌≡◌, None, Some, drop, option_map, IfOk, OnErr};
//~ ghost use Rattle.rw_program.specs.Lines.{line_of};
//~ ghost use Rattle.rw_program.specs.Words.{Refuses};
//~ ghost use Rattle.rw_program.specs.CommandLine.{command_named, file_behind, file_in, given, is_end, threads_in, wish_in, wish_by, wish_of, wish_over};

use crate::source::rw_program::clap_command::text_of_refused;
use crate::source::rw_program::endings::Ended;
use crate::source::rw_program::flags::{DASHES, THREADS, is_flag};
use crate::source::rw_program::statuses::REFUSED_WORDS;
use crate::shim::alloc::Global;

/// What to do with a file.
#[derive(Clone, Copy, Debug, PartialEq, Eq)]
pub enum Verb {
    Record,
    Check,
    Debug,
    Salvage,
}

/// A command of the program.
#[derive(Clone, Copy, Debug, PartialEq, Eq)]
pub enum Command {
    Session,
    Over(Verb),
}

/// What the words of the command line ask for.
#[derive(Clone, Copy, Debug, PartialEq, Eq)]
pub enum Asked<'a> {
    Session,
    Over(Verb, &'a str),
    /// The script in this file is to be played by a thread for each actor.
    Threads(&'a str),
}

/// The words ask for nothing that the program does. [`refuse_words`] returns what is said of them.
#[derive(Clone, Copy, Debug, PartialEq, Eq)]
pub struct RefusedWords;

/// Returns the command that a word names.
fn command_named(word: &str) -> Option<Command>
//~     ensures { result ≡ command_named word.now }
{
    if word == "session" {
        Some(Command::Session)
    } else if word == "record" {
        Some(Command::Over(Verb::Record))
    } else if word == "check" {
        Some(Command::Over(Verb::Check))
    } else if word == "debug" {
        Some(Command::Over(Verb::Debug))
    } else if word == "salvage" {
        Some(Command::Over(Verb::Salvage))
    } else {
        None
    }
}

/// Whether the words may end here: there is none, or `--` alone.
fn is_end(words: &[String]) -> bool
//~     ensures { result ≡ is_end (given words.now) }
{
    match words {
        [] => true,
        [word] => word.as_str() == DASHES,
        _ => false,
    }
}

/// Returns the only word behind `--`, whatever it is.
fn file_behind(words: &[String]) -> Option<&str>
//~     ensures { option_map (λ file. file.now) result ≡ file_behind (given words.now) }
{
    match words {
        [file] => Some(file.as_str()),
        _ => None,
    }
}

/// Returns the file that the words name.
fn file_in(words: &[String]) -> Option<&str>
//~     ensures { option_map (λ file. file.now) result ≡ file_in (given words.now) }
{
    match words {
        [] => None,
        [word, rest @ ..] => {
            if word.as_str() == DASHES {
                file_behind(rest)
            } else if !is_flag(word) && is_end(rest) {
                Some(word.as_str())
            } else {
                None
            }
        }
    }
}

/// Returns the file that the words name if the flag for threads is among them.
fn threads_in(words: &[String]) -> Option<&str>
//~     ensures { option_map (λ file. file.now) result ≡ threads_in (given words.now) }
{
    match words {
        [word, next, rest @ ..] => {
            if word.as_str() == THREADS {
                file_in(&words[1..])
            } else if !is_flag(word) && next.as_str() == THREADS && is_end(rest) {
                Some(word.as_str())
            } else {
                None
            }
        }
        _ => None,
    }
}

/// Returns what the words behind the name of a verb ask for.
fn asked_over(verb: Verb, words: &[String]) -> Option<Asked<'_>>
//~     ensures { option_map wish_of result ≡ wish_over verb (given words.now) }
{
    if verb == Verb::Record {
        if let Some(file) = threads_in(words) {
            return Some(Asked::Threads(file));
        }
    }
    match file_in(words) {
        Some(file) => Some(Asked::Over(verb, file)),
        None => None,
    }
}

/// Returns what a command and the words behind it ask for.
fn asked_by(command: Command, words: &[String]) -> Option<Asked<'_>>
//~     ensures { option_map wish_of result ≡ wish_by command (given words.now) }
{
    match command {
        Command::Over(verb) => asked_over(verb, words),
        Command::Session => {
            if is_end(words) {
                Some(Asked::Session)
            } else {
                None
            }
        }
    }
}

/// Returns what the words behind the program's name ask for.
fn asked_in(words: &[String]) -> Option<Asked<'_>>
//~     ensures { option_map wish_of result ≡ wish_in (given words.now) }
{
    match words {
        [] => None,
        [word, rest @ ..] => match command_named(word) {
            Some(command) => asked_by(command, rest),
            None => None,
        },
    }
}

/// Returns what the words of the command line ask for. The first is the program's name.
pub fn read_words(words: &[String]) -> Result<Asked<'_>, RefusedWords>
//~     ensures asked { IfOk result (λ asked. wish_in (drop 1 (given words.now)) ≡ Some (wish_of asked)) }
//~     ensures refused { OnErr result (wish_in (drop 1 (given words.now)) ≡ None) }
{
    match words {
        [_, rest @ ..] => match asked_in(rest) {
            Some(asked) => Ok(asked),
            None => Err(RefusedWords),
        },
        [] => Err(RefusedWords),
    }
}

/// Returns the end if the words are refused: what clap says of them, or that memory ran out.
pub fn refuse_words(alloc: Global, words: &[String]) -> Ended
//~     ensures { Refuses (line_of result) result.status }
{
    Ended::told(text_of_refused(alloc, words), REFUSED_WORDS)
}
