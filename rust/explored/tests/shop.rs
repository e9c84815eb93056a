//! The example of the guide's page on exploring, which has this test and what it says.

use std::path::{Path, PathBuf};
use std::process::Command;
use std::{env, fs};
use tokio::task::yield_now;
use tokio::time::{Duration, sleep};
use yovanelum::{Recorder, named, watch};

#[tokio::test]
#[ignore = "it is explored by another test"]
async fn the_config_is_applied() {
    let recorder = Recorder::for_test("the_config_is_applied");
    let (feed, mut rx) = watch::channel(0);
    recorder.name(&feed, "config");
    let reader = tokio::spawn(named("reader", async move {
        let mut applied = 0;
        while rx.changed().await.is_ok() {
            applied = *rx.borrow();
            yield_now().await; // It is applied.
            rx.mark_unchanged();
        }
        applied
    }));
    let admin = tokio::spawn(named("admin", async move {
        for version in 1..=3 {
            feed.send(version).unwrap();
            sleep(Duration::from_millis(40)).await;
        }
    }));
    admin.await.unwrap();
    assert_eq!(reader.await.unwrap(), 3);
}

/// Returns the lines of the report that say what was found: those before the panic.
fn found(said: &str) -> Vec<&str> {
    let lines = said
        .lines()
        .skip_while(|line| !line.starts_with("yovanelum: explored "));
    lines.take_while(|line| !line.is_empty()).collect()
}

#[test]
fn the_guide_has_this_test_and_its_report() {
    let ran = Command::new(env::current_exe().unwrap())
        .args(["--ignored", "--exact", "the_config_is_applied"])
        .env("YOVANELUM_EXPLORE", "200")
        .env("YOVANELUM_EXPLORE_JOBS", "1")
        .output()
        .unwrap();
    assert!(!ran.status.success());
    let said = String::from_utf8(ran.stderr).unwrap();
    let sources = env::var_os("YOVANELUM_SOURCE").map(PathBuf::from);
    let sources = sources.unwrap_or_else(|| Path::new(env!("CARGO_MANIFEST_DIR")).join("../src"));
    let manual = fs::read_to_string(sources.join("guide/explore.md")).unwrap();
    let source = include_str!("shop.rs");
    let from = source.find("async fn the_config_is_applied").unwrap();
    let to = source.find("\n}\n").unwrap();
    assert!(manual.contains(&source[from..to]));
    // The first line has the time and the number of the run. On a busy machine the two steps aren't
    // always found, and where the machine's clock went on, they may be two others.
    let lines = found(&said);
    let switch = lines
        .iter()
        .position(|line| line.starts_with("  the switch: "));
    let switch = switch.unwrap_or_else(|| panic!("{said}"));
    let went_on = "  timers of the machine's clock went on for ";
    let is_late = lines.iter().any(|line| line.starts_with(went_on));
    let mut race = lines.iter();
    let race = race.find(|line| !is_late && line.starts_with("  the race: "));
    for line in lines[switch..switch + 2].iter().chain(race) {
        assert!(manual.contains(line), "{line} in {said}");
    }
}
