//! The command line as `clap` has it: the names, arguments and help of the program, and what is said of words that are refused.
//!
//! `words.rt` defines which words are accepted, and what they ask for. That clap accepts the same ones is tested.
// From crates/rw_program/src/clap_command.rt, with its contracts as comments. //+
use crate::shim::{String, format}; //+

//~ ghost use Rattle.std.specs.Prelude.{◌≡◌, [], ◌∷◌, IfOk, true, codes};
//~ ghost use Rattle.clap.specs.Simple.{app_of, new_app, on_top, with_subcommand};
//~ ghost use Rattle.rw_program.specs.Clap.{HasShape, file, program, threads, with_arguments};

use crate::shim::clap::error::ErrorKind;
use crate::shim::clap::{Arg, ArgAction, Command, Error};
use crate::shim::alloc::{AllocError, Global};

/// What is said of words that are refused although clap accepts them. No such words are known.
const NOT_ACCEPTED: &str = "these arguments are not accepted";

/// Returns a command over a file.
fn over_file<'a>(alloc: Global, name: &'a str, about: &'a str) -> Result<Command<'a>, AllocError>
//~     ensures { IfOk result (λ command. HasShape command (with_arguments (file ∷ []) name.now)) }
{
    let file = Arg::new(alloc, "FILE")
        .required(true)
        .action(ArgAction::Set);
    let command = Command::new(alloc, name).about(about);
    command.arg(file)
}

/// Returns the command that runs a script. The flag may stand on either side of the file.
fn record<'a>(alloc: Global) -> Result<Command<'a>, AllocError>
//~     ensures { IfOk result (λ command. HasShape command (with_arguments (file ∷ threads ∷ []) (codes "record"))) }
{
    let threads = Arg::new(alloc, "threads")
        .long("threads")
        .help("Play each actor's lines in a thread of its own")
        .action(ArgAction::SetTrue);
    let record = over_file(
        alloc,
        "record",
        "Run the script in FILE and write its journal",
    )?;
    record.arg(threads)
}

/// Returns the program without its commands, one of which has to be there.
fn without_commands<'a>(alloc: Global) -> Result<Command<'a>, AllocError>
//~     ensures { IfOk result (λ command. app_of command ≡ on_top (λ s. record s { subcommand_required = true }) (new_app (codes "ttd"))) }
{
    let program = Command::new(alloc, "ttd").bin_name("ttd")?;
    let program = program.about("Time-travel debugger of broadcast and watch channels");
    Ok(program.subcommand_required(true))
}

/// Returns the program with the command that runs a session.
fn with_session<'a>(alloc: Global, program: Command<'a>) -> Result<Command<'a>, AllocError>
//~     ensures { IfOk result (λ command. app_of command ≡ with_subcommand (app_of program.entry) (with_arguments [] (codes "session"))) }
{
    let session = Command::new(alloc, "session").about(
        "Read a script and then commands over its run, from standard input",
    );
    program.subcommand(session)
}

/// Returns the program with the command that runs a script.
fn with_record<'a>(alloc: Global, program: Command<'a>) -> Result<Command<'a>, AllocError>
//~     ensures { IfOk result (λ command.
//~         app_of command ≡ with_subcommand (app_of program.entry) (with_arguments (file ∷ threads ∷ []) (codes "record"))) }
{
    let record = record(alloc)?;
    program.subcommand(record)
}

/// Returns the program with a command over a file.
fn with_over_file<'a>(
    alloc: Global,
    program: Command<'a>,
    name: &'a str,
    about: &'a str,
) -> Result<Command<'a>, AllocError>
//~     ensures { IfOk result (λ command. app_of command ≡ with_subcommand (app_of program.entry) (with_arguments (file ∷ []) name.now)) }
{
    let over = over_file(alloc, name, about)?;
    program.subcommand(over)
}

/// Returns the command line of the program.
pub fn command_line<'a>(alloc: Global) -> Result<Command<'a>, AllocError>
//~     ensures { IfOk result (λ command. app_of command ≡ program) }
{
    let program = without_commands(alloc)?;
    let program = with_session(alloc, program)?;
    let program = with_record(alloc, program)?;
    let program = with_over_file(alloc, program, "check", "Judge the journal in FILE")?;
    let program = with_over_file(
        alloc,
        program,
        "debug",
        "Read commands over the journal in FILE, from standard input",
    )?;
    with_over_file(
        alloc,
        program,
        "salvage",
        "Write what a journal in FILE that was cut off still holds",
    )
}

/// Returns why clap refuses these words, or that memory ran out.
fn refusal(alloc: Global, words: &[String]) -> Result<Error, AllocError> {
    let mut program = command_line(alloc)?;
    let refused = match program.try_get_matches_from_mut(words) {
        Ok(_) => None,
        Err(error) => Some(error),
    };
    match refused {
        Some(error) => Ok(error),
        None => program.error(ErrorKind::UnknownArgument, NOT_ACCEPTED),
    }
}

/// Returns what clap says of words that are refused: why, or the help that they ask for.
pub(crate) fn text_of_refused(alloc: Global, words: &[String]) -> Result<String, AllocError> {
    let error = refusal(alloc, words)?;
    match error.kind() {
        ErrorKind::OutOfMemory => Err(AllocError),
        _ => format!(in alloc; "{error}"),
    }
}
