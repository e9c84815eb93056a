//! Scripts: read whole and line by line, played on a book, and run.

use crate::met::{TRIES, refused, say, tried};
use proved::Global;
use proved::rw_journal::Run;
use proved::rw_law::NoMemory;
use proved::rw_script::{
    MOST_STEPS, Played, Script, ScriptFault, ScriptFaultKind, ScriptReader, play as play_script,
    run_one,
};

/// A script with names, whose last call would wait.
static SCRIPT: &[u8] = b"broadcast 2
watch 5
actors 2
0 0 subscribe 0 as slow
0 0 send 0 1
1 1 send 0 6
0 0 try-recv slow
1 1 clone-receiver 1 as other
1 1 update other
0 0 downgrade 0 as weak
0 0 clone-weak weak as second
0 0 upgrade weak as strong
0 0 drop strong
0 0 recv slow
";

/// Its lines, without their LF.
static LINES: [&[u8]; 14] = [
    b"broadcast 2",
    b"watch 5",
    b"actors 2",
    b"0 0 subscribe 0 as slow",
    b"0 0 send 0 1",
    b"1 1 send 0 6",
    b"0 0 try-recv slow",
    b"1 1 clone-receiver 1 as other",
    b"1 1 update other",
    b"0 0 downgrade 0 as weak",
    b"0 0 clone-weak weak as second",
    b"0 0 upgrade weak as strong",
    b"0 0 drop strong",
    b"0 0 recv slow",
];

/// Whether memory was refused. The line is then one of the script.
fn is_refused(fault: ScriptFault) -> bool {
    matches!(fault.kind, ScriptFaultKind::NoMemory)
}

/// Reads a script.
fn read_script(bytes: &[u8]) -> Option<Script> {
    for _ in 0..TRIES {
        match Script::read(Global, bytes) {
            Ok(script) => return Some(script),
            Err(fault) => refused(is_refused(fault)),
        }
    }
    None
}

/// Takes a line. At a refusal no line was taken.
fn take_line(reader: &mut ScriptReader, line: &[u8]) -> Result<(), ScriptFault> {
    let lines = reader.lines();
    for _ in 0..TRIES {
        if reader.lines() > MOST_STEPS as u64 {
            return Ok(());
        }
        match reader.read_line(line) {
            Ok(()) => return Ok(()),
            Err(fault) => refused(is_refused(fault) && reader.lines() == lines),
        }
    }
    Ok(())
}

/// Takes all lines of the script.
fn read_lines(lines: &[&[u8]]) -> ScriptReader {
    let mut reader = ScriptReader::new(Global);
    for line in lines {
        let _ = take_line(&mut reader, line);
    }
    reader
}

/// Returns the script of these lines. It allocates nothing.
fn finished(reader: ScriptReader) -> Result<Script, ScriptFault> {
    let line = reader.lines();
    if line > MOST_STEPS as u64 {
        let kind = ScriptFaultKind::TooManySteps;
        return Err(ScriptFault { line, kind });
    }
    reader.finish()
}

/// How many entries a script that was played has, and which line would wait.
type Entries = (u64, Option<u64>);

/// Does this with a script, which keeps its steps at a refusal.
fn with_retries(
    script: &Script,
    play: fn(&Script) -> Result<Entries, NoMemory>,
) -> Result<Entries, NoMemory> {
    tried(script, |script| script.steps().len(), |script| play(script))
}

/// Plays a script on a book.
fn play_once(script: &Script) -> Result<Entries, NoMemory> {
    let Played { specs, book, waits } = play_script(Global, script)?;
    Ok((Run::of_book(specs, book).len(), waits))
}

/// The same, with retries.
fn played(script: &Script) -> Result<Entries, NoMemory> {
    with_retries(script, play_once)
}

/// Runs a script in one thread.
fn run_once(script: &Script) -> Result<Entries, NoMemory> {
    let (run, waits) = run_one(Global, script)?;
    Ok((run.len(), waits))
}

/// The same, with retries.
fn run_script(script: &Script) -> Result<Entries, NoMemory> {
    with_retries(script, run_once)
}

/// Says how many entries a script has, and which line would wait, or why it isn't played.
fn say(name: &str, entries: Result<Entries, NoMemory>) {
    match entries {
        Ok(entries) => say!("  {name}: {entries:?}"),
        Err(fault) => say!("  {fault:?}"),
    }
}

/// Plays a script on a book, and runs it.
fn play_runs(script: &Script) {
    say!(
        "  {} channels, {} steps",
        script.specs().len(),
        script.steps().len()
    );
    say("played", played(script));
    say("run", run_script(script))
}

/// How many steps a script has.
fn steps_of(script: Script) -> usize {
    script.steps().len()
}

/// Plays a script that is read whole.
fn play_whole() {
    let Some(script) = read_script(SCRIPT) else {
        return say!("  isn't read");
    };
    play_runs(&script);
}

/// Reads the lines of the same script one by one.
fn play_lines() {
    match finished(read_lines(&LINES)) {
        Ok(script) => say!("  read by lines: {} steps", steps_of(script)),
        Err(fault) => say!("  {fault:?}"),
    }
}

/// Plays a script that is read whole, and its lines one by one.
pub fn play() {
    say!("a script");
    play_whole();
    play_lines()
}
