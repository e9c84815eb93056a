//! What the adapter shows of random runs is what the console of `ttd` shows, at each place and in
//! both directions.

use crate::support::{Client, Folder, Random, runs};
use serde_json::json;
use std::fs;
use std::io::Write;
use std::path::Path;
use std::process::{Command, Stdio};
use yovanelum::{Recorder, broadcast, named, watch};

/// Makes random calls on a broadcast and a watch by two tasks, and saves them.
pub fn save(folder: &Folder, seed: u64) -> std::path::PathBuf {
    let mut random = Random::new(seed);
    let recorder = Recorder::new();
    let _entered = recorder.enter();
    let (tx, rx) = broadcast::channel(1 + random.below(4));
    let (level, looks) = watch::channel(0);
    recorder.name(&tx, "orders").name(&level, "level");
    let (mut readers, mut lookers) = (vec![rx], vec![looks]);
    for value in 0..8 + random.below(20) {
        let task = format!("task-{}", random.below(2));
        let (reader, looker) = (random.below(readers.len()), random.below(lookers.len()));
        let what = random.below(10);
        let call = named(&task, async {
            match what {
                0..=3 => drop(tx.send(value)),
                4..=5 => drop(readers[reader].try_recv()),
                6 => readers.push(tx.subscribe()),
                7 if readers.len() > 1 => drop(readers.swap_remove(reader)),
                7 => drop(level.borrow()),
                8 => drop(level.send(value)),
                _ => drop(lookers[looker].borrow_and_update()),
            }
        });
        yovanelum::block_on(call);
        if random.below(8) == 0 {
            lookers.push(lookers[looker].clone());
        }
    }
    let path = folder.path("random.journal");
    recorder.save(&path).unwrap();
    path
}

/// Returns what the console of `ttd` prints of these commands.
fn console(ttd: &std::ffi::OsStr, journal: &Path, commands: &str) -> String {
    let mut ttd = Command::new(ttd);
    let ttd = ttd
        .arg("debug")
        .arg(journal)
        .stdin(Stdio::piped())
        .stdout(Stdio::piped());
    let mut ttd = ttd.spawn().unwrap();
    let mut input = ttd.stdin.take().unwrap();
    let commands = commands.to_string();
    let writer = std::thread::spawn(move || input.write_all(commands.as_bytes()));
    let written = ttd.wait_with_output().unwrap().stdout;
    writer.join().unwrap().unwrap();
    String::from_utf8(written).unwrap()
}

/// Walks by the adapter's steps, and returns what it shows, with the commands that show it in the
/// console.
fn walked(client: &mut Client, calls: usize) -> (String, String) {
    let (mut shown, mut commands) = (String::new(), String::new());
    let mut look = |client: &mut Client, command: &str| {
        for text in ["state", "state json", "step"] {
            shown.push_str(&client.console(text));
            shown.push('\n');
        }
        commands.push_str(&format!("{command}state\nstate json\nstep\n"));
    };
    look(client, "");
    for (request, word) in [("stepBack", "back\n"), ("stepOut", "forward\n")] {
        for _ in 0..calls {
            let thread = client.ask("threads", json!({}))["threads"][0]["id"].clone();
            client.go(
                request,
                json!({"threadId": thread, "granularity": "instruction"}),
            );
            look(client, word);
        }
    }
    (shown, commands)
}

#[test]
fn random_runs_are_shown_as_by_the_console() {
    let ttd = std::env::var_os("YOVANELUM_TTD");
    let ttd = ttd.expect("the variable YOVANELUM_TTD names the program to compare with");
    let folder = Folder::new();
    for seed in 1..=runs(50) {
        let journal = save(&folder, seed);
        let text = fs::read_to_string(&journal).unwrap();
        let calls = text.lines().filter(|line| line.contains(" = ")).count();
        let mut client = Client::new(false);
        client.launch(json!({"journal": journal, "stopAt": "end"}));
        let (shown, commands) = walked(&mut client, calls);
        let said = console(&ttd, &journal, &commands);
        // The console says the place of each move.
        let is_move = |line: &str| line.starts_with("place ");
        let mut wanted: Vec<&str> = said.lines().collect();
        wanted.dedup_by(|next, before| is_move(next) && next == before);
        assert_eq!(shown.lines().collect::<Vec<_>>(), wanted, "{text}");
        client.ask("disconnect", json!({}));
        assert!(client.end());
    }
}
