//! Runs of flaky programs, recorded and replayed.

use std::path::PathBuf;
use std::{env, fs, process};
use yovanelum::Recorder;

/// A program whose result depends on the order of its calls. It returns an `Err` with the text of
/// what is wrong. The seed says how long its threads pause.
pub type Program = fn(&Recorder, u64) -> Result<(), String>;

fn count(variable: &str, default: u64) -> u64 {
    let text = env::var(variable).ok();
    text.map_or(default, |text| text.parse().unwrap())
}

/// A run that was recorded.
struct Recorded {
    journal: PathBuf,
    result: Result<(), String>,
}

impl Recorded {
    fn of(recorder: &Recorder, name: &str, result: Result<(), String>) -> Recorded {
        let how = if result.is_ok() { "passes" } else { "fails" };
        let file = format!("yovanelum-{name}-{how}-{}.journal", process::id());
        let journal = env::temp_dir().join(file);
        recorder.save(&journal).unwrap();
        Recorded { journal, result }
    }

    /// Replays the run `times` times. Counts what came of it, and returns the first line of a
    /// replay that left the order or the result.
    fn replay(&self, program: Program, times: u64) -> (Count, Option<String>) {
        let mut count = Count::default();
        let mut other = None;
        for seed in 0..times {
            let recorder = Recorder::replay(&self.journal).unwrap();
            let result = program(&recorder, 1_000_000 + seed);
            let replayed = recorder.replayed().unwrap();
            let is_same = result == self.result;
            if replayed.is_in_order() {
                count.in_order += 1
            } else {
                count.diverged += 1
            }
            count.same += u64::from(is_same);
            if !is_same || !replayed.is_in_order() {
                other = other.or(Some(format!("{result:?}: {replayed}")));
            }
            count.wrong += u64::from(!is_same && replayed.is_in_order());
        }
        (count, other)
    }
}

/// What came of some replays.
#[derive(Clone, Copy, Debug, Default, PartialEq, Eq)]
struct Count {
    /// Gave the result of the run.
    same: u64,
    /// Said that all calls came in the order of the journal.
    in_order: u64,
    /// Said that they didn't.
    diverged: u64,
    /// Said that they did, with another result.
    wrong: u64,
}

impl Drop for Recorded {
    fn drop(&mut self) {
        let _ = fs::remove_file(&self.journal);
        let _ = fs::remove_file(self.journal.with_extension("names"));
    }
}

/// Runs a program until it has failed once and passed once, and replays both runs. Asserts that
/// each replay gives the result of its run.
pub fn replays(name: &str, program: Program) {
    let times = count("YOVANELUM_REPLAYS", 10);
    for (count, other) in failed_and_passed(name, program, times) {
        assert_eq!((count.same, count.in_order, other), (times, times, None));
    }
}

/// The same for a program in which more than the order of its calls decides. Asserts that a replay
/// which says that it is in order gives the result of its run.
#[allow(dead_code)]
pub fn tells_the_truth(name: &str, program: Program) {
    let times = count("YOVANELUM_REPLAYS", 10);
    for (count, other) in failed_and_passed(name, program, times) {
        assert_eq!(
            (count.wrong, count.in_order + count.diverged),
            (0, times),
            "{other:?}"
        );
    }
}

/// Runs a program until it has failed once and passed once, and replays both runs `times` times.
fn failed_and_passed(name: &str, program: Program, times: u64) -> [(Count, Option<String>); 2] {
    let wanted = count("YOVANELUM_FREE_RUNS", 0);
    let (mut failed, mut passed, mut failures) = (None, None, 0);
    for seed in 0..wanted.max(500) {
        let recorder = Recorder::new();
        let result = program(&recorder, seed);
        failures += u64::from(result.is_err() && seed < wanted);
        let kept = if result.is_ok() {
            &mut passed
        } else {
            &mut failed
        };
        if kept.is_none() {
            *kept = Some(Recorded::of(&recorder, name, result));
        }
        if failed.is_some() && passed.is_some() && seed + 1 >= wanted {
            break;
        }
    }
    let [failed, passed] = [failed, passed].map(|run| run.expect("the program fails and passes"));
    let again = [&failed, &passed].map(|run| run.replay(program, times));
    println!(
        "{name}: fails in {failures} of {wanted}; of {times} replays of a run that fails {:?}, of one that passes {:?}",
        again[0].0, again[1].0
    );
    again
}
