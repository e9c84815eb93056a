//! Scripts as long as they may be.

use proved::Global;
use proved::rw_script::{Script, ScriptFault, ScriptFaultKind, ScriptReader, ScriptStep};
use proved::rw_world::Spec;

/// The lines of a script after those of its first 63 channels: the last of 64 channels, 64 actors and two steps.
const LAST_LINES: &[u8] =
    b"broadcast 65536\nactors 64\n63 63 subscribe 0 as abcdefghijklmnop\n63 63 drop abcdefghijklmnop\n---\n";

/// Returns a script of 64 channels and 64 actors. What comes after the mark isn't checked.
fn limits() -> Vec<u8> {
    let watches = b"watch 18446744073709551615\n".repeat(63);
    let script = [watches.as_slice(), LAST_LINES, &[b'x'; 300]].concat();
    drop(watches);
    script
}

/// A step's line, actor, channel and target, and whether it binds a name.
type Shown = (u64, u32, u32, Option<u32>, bool);

/// Returns what a step shows.
fn shown(step: &ScriptStep) -> Shown {
    (step.line, step.actor, step.channel, step.target, step.binds)
}

/// Asserts that a script of 64 channels and 64 actors has its specs and its two steps.
fn has_limits(script: &Script) {
    let (specs, steps) = (script.specs(), script.steps());
    assert_eq!((script.actors(), specs.len()), (64, 64));
    let last = (specs.get(62), specs.get(63));
    let told = (Some(&Spec::Watch(u64::MAX)), Some(&Spec::Broadcast(65_536)));
    assert_eq!(last, told);
    let [bind, use_it] = steps else {
        panic!("not two steps");
    };
    let found = [shown(bind), shown(use_it)];
    let told = [(66, 63, 63, None, true), (67, 63, 63, Some(0), false)];
    assert_eq!(found, told);
}

/// Reads that script.
fn read_limits() -> Script {
    let script = limits();
    let read = Script::read(Global, &script);
    read.unwrap()
}

#[test]
fn takes_limits() {
    let script = read_limits();
    has_limits(&script);
}

/// Reads lines until there are as many steps as there may be.
fn fill(reader: &mut ScriptReader) -> Result<(), ScriptFault> {
    if reader.lines() > 0 {
        return Ok(());
    }
    reader.read_line(b"broadcast 1")?;
    reader.read_line(b"0 0 subscribe 9 as r")?;
    for _ in 1..1_048_576 {
        if reader.lines() > 2_000_000 {
            break;
        }
        reader.read_line(b"0 0 drop 9")?;
    }
    Ok(())
}

/// Lines that a reader with all the steps that there may be refuses, and why.
static REFUSED: [(&[u8], ScriptFaultKind); 3] = [
    (b"0 0 drop 9", ScriptFaultKind::TooManySteps),
    (b"0 0 subscribe 9 as r", ScriptFaultKind::NameTaken),
    (b"0 0 drop s", ScriptFaultKind::UnknownName),
];

/// Asserts that a reader with all the steps that there may be refuses further ones.
fn is_full(reader: &mut ScriptReader) {
    assert_eq!(reader.lines(), 1_048_577);
    for (line, kind) in &REFUSED {
        if reader.lines() < 2_000_000 {
            let fault = ScriptFault {
                line: 1_048_578,
                kind: *kind,
            };
            assert_eq!(reader.read_line(line), Err(fault));
        }
    }
}

/// Returns how many steps the script of a reader has.
fn steps_of(reader: ScriptReader) -> usize {
    if reader.lines() > 2_000_000 {
        panic!("too many lines");
    }
    let script = reader.finish().unwrap();

    script.steps().len()
}

#[test]
fn takes_1048576_steps() {
    let mut reader = ScriptReader::new(Global);
    let filled = fill(&mut reader);
    is_full(&mut reader);
    let steps = steps_of(reader);
    assert_eq!((filled, steps), (Ok(()), 1_048_576));
}
