//! Commands of the console.
// From crates/rw_console/src/command.rt, with its contracts as comments. //+

//~ ghost use Rattle.std.specs.Prelude.{◌≡◌};
//~ ghost use Rattle.rw_console.specs.Commands.{command_in, word_alone, word_and_number, word_with};

use crate::source::rw_console::condition_words::condition_of;
use crate::source::rw_lines::{LONGEST_LINE, cut, is_skipped, numeral};
use crate::source::rw_navigator::{Cond, Move};

/// A line of the console, as a command.
#[derive(Clone, Copy)]
pub enum Command {
    /// Nothing: the line is empty or a comment.
    Skip,
    Move(Move),
    /// Prints what the channels show.
    State,
    /// Prints the same as JSON.
    StateJson,
    /// Prints the entry that led to the place.
    Step,
    /// Prints every entry.
    List,
    /// Goes to the nearest hit below the place.
    SearchBack(Cond),
    /// Goes to the nearest hit above the place.
    SearchForward(Cond),
    Quit,
    /// The line is no command.
    Bad,
}

/// Returns the command of a line of one word.
fn word_alone(word: &[u8]) -> Command
//~     ensures { result ≡ word_alone word.now }
{
    if word == b"back".as_slice() {
        Command::Move(Move::Back(1))
    } else if word == b"forward".as_slice() {
        Command::Move(Move::Forward(1))
    } else if word == b"start".as_slice() {
        Command::Move(Move::Start)
    } else if word == b"end".as_slice() {
        Command::Move(Move::End)
    } else if word == b"state".as_slice() {
        Command::State
    } else if word == b"step".as_slice() {
        Command::Step
    } else if word == b"list".as_slice() {
        Command::List
    } else if word == b"quit".as_slice() {
        Command::Quit
    } else {
        Command::Bad
    }
}

/// Returns the command of a word and a number.
fn word_and_number(word: &[u8], n: u64) -> Command
//~     ensures { result ≡ word_and_number word.now n }
{
    if word == b"back".as_slice() {
        Command::Move(Move::Back(n))
    } else if word == b"forward".as_slice() {
        Command::Move(Move::Forward(n))
    } else if word == b"goto".as_slice() {
        Command::Move(Move::Goto(n))
    } else {
        Command::Bad
    }
}

/// Returns the command of a word and what follows the space after it.
fn word_with(word: &[u8], rest: &[u8]) -> Command
//~     ensures { result ≡ word_with word.now rest.now }
{
    if word == b"rback".as_slice() {
        match condition_of(rest) {
            Some(cond) => Command::SearchBack(cond),
            None => Command::Bad,
        }
    } else if word == b"rforward".as_slice() {
        match condition_of(rest) {
            Some(cond) => Command::SearchForward(cond),
            None => Command::Bad,
        }
    } else if word == b"state".as_slice() {
        if rest == b"json".as_slice() {
            Command::StateJson
        } else {
            Command::Bad
        }
    } else {
        match numeral(rest) {
            Some(n) => word_and_number(word, n),
            None => Command::Bad,
        }
    }
}

/// Parses a line of the console.
//~ #[tactic(auto, unfolding(crate::specs::Commands::command_in))]
pub fn command_of(line: &[u8]) -> Command
//~     ensures { result ≡ command_in line.now }
{
    if line.len() > LONGEST_LINE {
        return Command::Bad;
    }
    if is_skipped(line) {
        return Command::Skip;
    }
    match cut(line, b' ') {
        Some((word, rest)) => word_with(word, rest),
        None => word_alone(line),
    }
}
