//! The flags of the command line.
// From crates/rw_program/src/flags.rt, with its contracts as comments. //+

//~ ghost use Rattle.std.specs.Prelude.{◌≡◌};
//~ ghost use Rattle.rw_program.specs.CommandLine.{is_flag};

/// Behind this word no word is a flag.
pub(crate) const DASHES: &str = "--";

/// Lets a thread for each actor play a script.
pub(crate) const THREADS: &str = "--threads";

/// Whether a word is a flag: a dash, and more behind it.
pub(crate) fn is_flag(word: &str) -> bool
//~     ensures { result ≡ is_flag word.now }
{
    match word.as_bytes() {
        [dash, _, ..] => *dash == b'-',
        _ => false,
    }
}
