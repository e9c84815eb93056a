//! That `clap` accepts the same command lines as `read_words`, which is proved, and reads the same
//! from them. `clap` is asked only for the texts of lines that `read_words` refuses.

#[path = "../../tests/support/random.rs"]
mod random;

use random::Random;
use yovanelum_ttd::shim::alloc::Global;
use yovanelum_ttd::shim::clap::{ArgMatches, Command};
use yovanelum_ttd::shim::{String, Vec};
use yovanelum_ttd::source::rw_program::{Asked, Verb, command_line, read_words};

/// The words of all short lines: each command, a file, the flags, words that are nearly flags, and
/// words that begin with a command or differ from one by one letter and by two.
const WORDS: [&str; 18] = [
    "session",
    "record",
    "check",
    "debug",
    "salvage",
    "help",
    "FILE",
    "--threads",
    "--",
    "-",
    "-h",
    "--help",
    "--threads=x",
    "",
    "recorder",
    "recrd",
    "chekc",
    "sesssio",
];

/// More words, for random lines.
const MORE: [&str; 18] = [
    "a b",
    "é",
    "\n",
    "-x",
    "-hx",
    "-xh",
    "-é",
    "---",
    "--=",
    "-=",
    "--foo",
    "--foo=b",
    "--thread",
    "--threads=",
    "--help=1",
    "--version",
    "Session",
    "session ",
];

/// Returns a word.
fn word(text: &str) -> String {
    let mut word = String::new(Global);
    word.push_str(text).unwrap();
    word
}

/// Returns what the matches of an accepted line ask for. `clap` has read the same words, so a name
/// that isn't there is a panic.
fn asked_of(matches: &ArgMatches) -> Asked<'_> {
    let (name, of_command) = matches.0.subcommand().unwrap();
    let file = || of_command.get_one::<std::string::String>("FILE").unwrap();
    match name {
        "session" => Asked::Session,
        "record" if of_command.get_flag("threads") => Asked::Threads(file()),
        "record" => Asked::Over(Verb::Record, file()),
        "check" => Asked::Over(Verb::Check, file()),
        "debug" => Asked::Over(Verb::Debug, file()),
        "salvage" => Asked::Over(Verb::Salvage, file()),
        _ => panic!("{name} is no command"),
    }
}

/// Asserts that `clap` accepts a line exactly where `read_words` does, and reads the same from it.
/// Returns whether it is accepted.
fn is_accepted(command: &mut Command<'_>, texts: &[&str]) -> bool {
    let mut line = Vec::new(Global);
    line.push(word("ttd")).unwrap();
    texts.iter().for_each(|text| line.push(word(text)).unwrap());
    let read = read_words(&line);
    let matches = command.try_get_matches_from_mut(&line);
    assert_eq!(matches.is_ok(), read.is_ok(), "{texts:?}: {matches:?}");
    if let (Ok(matches), Ok(read)) = (&matches, &read) {
        assert_eq!(asked_of(matches), *read, "{texts:?}");
    }
    read.is_ok()
}

#[test]
fn of_all_lines_of_up_to_four_words_the_same_are_accepted() {
    let mut command = command_line(Global).unwrap();
    let (mut lines, mut accepted) = (0, 0);
    for length in 0..=4 {
        for number in 0..WORDS.len().pow(length) {
            let texts: std::vec::Vec<&str> = (0..length)
                .map(|place| WORDS[number / WORDS.len().pow(place) % WORDS.len()])
                .collect();
            accepted += u32::from(is_accepted(&mut command, &texts));
            lines += 1;
        }
    }
    println!("{lines} lines, of which {accepted} are accepted");
    assert_eq!(lines, 1 + 18 + 18 * 18 + 18 * 18 * 18 + 18 * 18 * 18 * 18);
    // 13 of the words may be a file anywhere, and each behind `--`, which may also stand last.
    let of_session = 2;
    let over_a_file = 2 * 13 + 18;
    let with_threads = 4 * 13 + 18;
    assert_eq!(accepted, of_session + 4 * over_a_file + with_threads);
}

#[test]
fn of_random_lines_the_same_are_accepted() {
    let mut command = command_line(Global).unwrap();
    let mut random = Random::new(83);
    let long = "x".repeat(500);
    let mut accepted = 0;
    for _ in 0..100_000 {
        let mut texts: std::vec::Vec<&str> = std::vec::Vec::new();
        // Most begin with a command, so that a part of them is accepted.
        if random.below(5) > 0 {
            texts.push(WORDS[random.below(6)]);
        }
        for _ in 0..random.below(8) {
            texts.push(match random.below(8) {
                0..4 => WORDS[6 + random.below(3)],
                4 | 5 => WORDS[random.below(WORDS.len())],
                6 => MORE[random.below(MORE.len())],
                _ => &long,
            });
        }
        accepted += u32::from(is_accepted(&mut command, &texts));
    }
    println!("100,000 lines, of which {accepted} are accepted");
    assert!(accepted > 1_000);
}
