//! A service outside of this package, with a flight recorder: what its dumps say by the programs
//! that a user has, and what it does where it gets no thread.
// It is built without optimization in either build of this test, so one of the two runs it.
#![cfg(all(unix, debug_assertions))]

mod support;

use std::ffi::OsStr;
use std::fs;
use std::os::unix::fs::PermissionsExt;
use std::path::{Path, PathBuf};
use std::process::{Command, Output};
use support::console;
use support::named::member;
use support::parts::between;
use support::workspace::{Workspace, in_turn, printed};

const SERVICE: &str = r#"
use std::future::Future;
use std::pin::pin;
use std::task::{Context, Waker};
use std::time::{Duration, Instant};
use std::{env, thread};
use yovanelum::{Recorder, broadcast};

/// Sends orders. The audit falls behind before the last hundred.
fn serve(recorder: &Recorder) -> broadcast::error::TryRecvError {
    let (orders, mut mailer) = broadcast::channel(16);
    let mut audit = orders.subscribe();
    recorder.name(&orders, "orders").name(&mailer, "mailer").name(&audit, "audit");
    recorder.show(&orders, |order: &u64| format!("order {order}"));
    for order in 0..100_000 {
        orders.send(order).unwrap();
        mailer.try_recv().unwrap();
        if order < 99_900 {
            audit.try_recv().unwrap();
        }
    }
    audit.try_recv().unwrap_err()
}

/// Waits until the wall clock shows another time, which is told in milliseconds.
fn pass_time() {
    let began = Instant::now();
    while began.elapsed() < Duration::from_millis(20) {
        thread::yield_now();
    }
}

/// The mailer doesn't receive the last 17 orders, of which 16 are retained. What is on the channels
/// is printed before it is told, and the dump is written later.
fn say_what_is_on_the_channels(recorder: &Recorder) -> broadcast::error::TryRecvError {
    let (orders, mut mailer) = broadcast::channel(16);
    recorder.name(&orders, "orders").name(&mailer, "mailer");
    for order in 0..5_000 {
        orders.send(order).unwrap();
        mailer.try_recv().unwrap();
    }
    pass_time();
    for order in 5_000..5_017 {
        orders.send(order).unwrap();
    }
    pass_time();
    let (alarms, mut siren) = broadcast::channel::<u64>(16);
    recorder.name(&alarms, "alarms").name(&siren, "siren");
    let mut rings = pin!(siren.recv());
    assert!(rings.as_mut().poll(&mut Context::from_waker(Waker::noop())).is_pending());
    pass_time();
    let snapshot = recorder.snapshot();
    print!("{snapshot}{}", snapshot.to_json());
    pass_time();
    let reply = mailer.try_recv().unwrap_err();
    pass_time();
    recorder.dump("asked for").wait().unwrap();
    reply
}

fn main() {
    let words: Vec<String> = env::args().collect();
    let recorder = Recorder::flight(1_000);
    recorder.dump_to(&words[1]).when_lag(50).on_panic();
    let _installed = recorder.install();
    let reply = match &*words[2] {
        "thread" => {
            let of_service = recorder.clone();
            let service = thread::Builder::new().name("shop".into());
            service.spawn(move || serve(&of_service)).unwrap().join().unwrap()
        }
        "main" => serve(&recorder),
        "snapshot" => say_what_is_on_the_channels(&recorder),
        "a thread panics" => {
            let (_orders, mut mailer) = broadcast::channel::<u64>(16);
            let mailing = thread::Builder::new().name("mailer".into());
            let mailing = mailing.spawn(move || {
                let _ = mailer.try_recv();
                panic!("no stamps");
            });
            mailing.unwrap().join().unwrap_err();
            broadcast::error::TryRecvError::Empty
        }
        "a lag, and then panics" => {
            let reply = serve(&recorder);
            // Panics at one place have one dump.
            let opens: [fn(); 2] = [
                || panic!("no change"),
                || panic!("no paper"),
            ];
            for (number, open) in opens.into_iter().enumerate() {
                let till = thread::Builder::new().name(format!("till {number}"));
                till.spawn(open).unwrap().join().unwrap_err();
            }
            reply
        }
        _ => {
            let (_orders, _mailer) = broadcast::channel::<u64>(16);
            panic!("the till is open");
        }
    };
    println!("{reply:?}");
    let wanted = if words[2] == "a lag, and then panics" { 3 } else { 1 };
    while recorder.dumps().written() + recorder.dumps().failed() < wanted {
        thread::yield_now();
    }
    println!("{:?}", recorder.dumps());
}
"#;

/// Returns the service's package, and an empty folder for its dumps.
fn workspace() -> (Workspace, PathBuf) {
    let manifest = "[package]\nname = \"shop\"\nversion = \"0.0.0\"\nedition = \"2021\"\n\n[dependencies]\nCRATE\n\n[profile.dev]\ndebug = false\nincremental = false\n\n[workspace]\n";
    let files = [("Cargo.toml", manifest), ("src/main.rs", SERVICE)];
    let workspace = Workspace::new("service", &files);
    let dumps = workspace.0.join("dumps");
    let _ = fs::remove_dir_all(&dumps);
    (workspace, dumps)
}

/// Runs the service with these words, and what the shell is to set.
fn run(workspace: &Workspace, set: &str, how: &str) -> Output {
    let line = format!("cargo build -q && {set} target/debug/shop dumps '{how}'");
    workspace
        .shell(&line)
        .env("CARGO_TARGET_DIR", "target")
        .output()
        .unwrap()
}

/// Returns the journals of the dumps of this folder.
fn journals(dumps: &Path) -> Vec<PathBuf> {
    let files = fs::read_dir(dumps)
        .unwrap()
        .map(|file| file.unwrap().path());
    files
        .filter(|path| path.extension().is_some_and(|it| it == "journal"))
        .collect()
}

/// Returns the journal of the only dump of this folder.
fn journal(dumps: &Path) -> PathBuf {
    let [journal] = &journals(dumps)[..] else {
        panic!("one dump");
    };
    journal.clone()
}

fn said(program: impl AsRef<OsStr>, words: &[&str], file: &Path) -> String {
    let run = Command::new(program)
        .args(words)
        .arg(file)
        .output()
        .unwrap();
    assert!(run.status.success(), "{}", printed(&run));
    printed(&run)
}

#[test]
fn a_lag_leaves_a_dump_that_says_who_lagged_and_where() {
    let _turn = in_turn();
    let (workspace, dumps) = workspace();
    let run = run(&workspace, "", "thread");
    let out = String::from_utf8(run.stdout.clone()).unwrap();
    let wanted = "Lagged(84)\nDumps { written: 1, failed: 0, left_out: 0 }\n";
    assert_eq!(out, wanted, "{}", printed(&run));
    let journal = journal(&dumps);
    if let Some(ttd) = console::ttd() {
        let checked = said(&ttd, &["check"], &journal);
        let entries: u64 = checked.trim().strip_prefix("ok ").unwrap().parse().unwrap();
        assert!((1_000..2_100).contains(&entries), "{entries}");
    }
    let why = said(env!("CARGO_BIN_EXE_yovanelum"), &["why"], &journal);
    assert!(why.contains("`audit` lost 84 of "), "{why}");
    assert!(
        why.contains("told: lagged 84") && why.contains("src/main.rs:"),
        "{why}"
    );
    assert!(why.contains("orders.send(\"order 99916\")"), "{why}");
    let names = fs::read_to_string(journal.with_extension("names")).unwrap();
    let window = member(&names, "window");
    let reason = "\"reason\": \"`audit` lost 84 values of `orders`\"";
    assert!(window.contains(reason), "{window}");
    let look = said(env!("CARGO_BIN_EXE_yovanelum"), &["open"], &journal);
    assert!(journal.with_extension("html").exists(), "{look}");
}

/// What a service has printed of its channels, and what is said of its dump.
struct Said {
    snapshot: String,
    why: String,
    json: String,
    journal: String,
}

/// The clock of a flight recorder begins at 64 times 1,048,576. There were 5,000 sends with a
/// receive each, and then 17 sends.
const RECEIVED: u64 = 64 * 1_048_576 + 10_000;

/// The last send, which overwrote what was not received.
const SENT: u64 = RECEIVED + 17;

impl Said {
    fn new() -> Said {
        let (workspace, dumps) = workspace();
        let run = run(&workspace, "", "snapshot");
        let snapshot = String::from_utf8(run.stdout.clone()).unwrap();
        assert!(snapshot.contains("\nLagged(1)\n"), "{}", printed(&run));
        let journal = journal(&dumps);
        let why = |words: &[&str]| said(env!("CARGO_BIN_EXE_yovanelum"), words, &journal);
        Said {
            snapshot,
            why: why(&["why"]),
            json: why(&["why", "--json"]),
            journal: fs::read_to_string(&journal).unwrap(),
        }
    }

    /// Returns which call of the journal it is whose line begins with this number.
    fn place(&self, stamp: u64) -> usize {
        let calls = self.journal.lines().filter(|line| line.contains(" = "));
        let begins = format!("{stamp} ");
        let before = calls.take_while(|line| !line.starts_with(&begins)).count();
        before + 1
    }
}

#[test]
fn a_dump_tells_a_call_by_the_number_and_the_time_that_a_snapshot_has_for_it() {
    let _turn = in_turn();
    let said = Said::new();
    let Said { snapshot, why, .. } = &said;
    // Nobody could take the one number for the other: the journal begins with a lead.
    assert!(said.place(SENT) < 10_000 && said.place(RECEIVED) < said.place(SENT));
    let sent_at = between(snapshot, &format!(", call {SENT} at "), " UTC\n");
    let received_at = between(snapshot, &format!("  {RECEIVED} at "), " UTC  -\n");
    assert!(received_at < sent_at, "{snapshot}");
    let clock = |at: &str| at.split_once(' ').unwrap().1.to_string();
    let cause = format!("\n  call {}   orders.send(", said.place(SENT));
    let cause = between(why, &cause, "\n");
    let at = format!("; at {} UTC, ", clock(sent_at));
    assert!(
        cause.contains("   overwrote ") && cause.contains(&at),
        "{sent_at}: {why}"
    );
    assert!(
        cause.ends_with(&format!(" before the dump, {SENT} in snapshots")),
        "{why}"
    );
    let last = format!(
        "   its last receive: call {} ({RECEIVED} in snapshots, at {} UTC), ",
        said.place(RECEIVED),
        clock(received_at)
    );
    assert!(why.contains(&last), "{last}: {why}");
    // The siren has waited since then.
    assert!(
        snapshot.contains(&format!(", since call {SENT}\n")),
        "{snapshot}"
    );
    let waits = format!(
        "\nstill waiting: main in `alarms.recv` since call {} ({SENT} in snapshots), src/main.rs:",
        said.place(SENT)
    );
    assert!(why.contains(&waits), "{waits}: {why}");
}

#[test]
fn a_dump_as_json_has_the_numbers_and_the_times_of_a_snapshot_as_json() {
    let _turn = in_turn();
    let said = Said::new();
    let Said { snapshot, json, .. } = &said;
    let sent = format!("\"sent_call\": {SENT}, \"sent_time\": \"");
    let sent_at = between(snapshot, &sent, "\"");
    let received = format!("\"received_call\": {RECEIVED}, \"received_time\": \"");
    let received_at = between(snapshot, &received, "\"");
    assert!(received_at < sent_at, "{snapshot}");
    let cause = format!("{{\"place\": {}, \"role\": \"cause\", ", said.place(SENT));
    let cause = between(json, &cause, "}");
    let wanted = format!(", \"time\": \"{sent_at}\", \"stamp\": {SENT}");
    assert!(cause.ends_with(&wanted), "{wanted}: {json}");
    let last = format!(
        "\"received\": {{\"place\": {}, \"stamp\": {RECEIVED}, \"time\": \"{received_at}\"}}",
        said.place(RECEIVED)
    );
    assert!(json.contains(&last), "{last}: {json}");
    let since = between(snapshot, "\"since\": ", ",");
    assert_eq!(since, SENT.to_string());
    let waits = format!("\"since_stamp\": {SENT}}}");
    assert!(json.contains(&waits), "{json}");
}

#[test]
fn a_service_that_gets_no_thread_says_so_and_goes_on() {
    let _turn = in_turn();
    let (workspace, dumps) = workspace();
    // No system has so much memory for a stack.
    let run = run(&workspace, "RUST_MIN_STACK=4611686018427387904", "main");
    let out = String::from_utf8(run.stdout.clone()).unwrap();
    let wanted = "Lagged(84)\nDumps { written: 0, failed: 1, left_out: 0 }\n";
    assert_eq!(out, wanted, "{}", printed(&run));
    let said = "yovanelum: a dump isn't written: no thread for it: ";
    assert_eq!(printed(&run).matches(said).count(), 1, "{}", printed(&run));
    assert!(!dumps.exists());
}

#[test]
fn panics_right_after_a_lag_leave_dumps_of_their_own() {
    let _turn = in_turn();
    let (workspace, dumps) = workspace();
    let run = run(&workspace, "", "a lag, and then panics");
    let out = String::from_utf8(run.stdout.clone()).unwrap();
    let wanted = "Lagged(84)\nDumps { written: 3, failed: 0, left_out: 0 }\n";
    assert_eq!(out, wanted, "{}", printed(&run));
    let reasons = journals(&dumps).into_iter().map(|journal| {
        let names = fs::read_to_string(journal.with_extension("names")).unwrap();
        let window = member(&names, "window").to_string();
        let (_, reason) = window.split_once("\"reason\": \"").unwrap();
        reason
            .split([' ', '"'])
            .take(2)
            .collect::<Vec<_>>()
            .join(" ")
    });
    let mut reasons: Vec<_> = reasons.collect();
    reasons.sort();
    assert_eq!(reasons, ["`audit` lost", "till 0", "till 1"]);
    let modes = [dumps.clone(), journals(&dumps)[0].clone()].map(|path| {
        let mode = fs::metadata(path).unwrap().permissions().mode();
        mode & 0o777
    });
    assert_eq!(modes, [0o700, 0o600]);
}

#[test]
fn a_panic_of_a_thread_leaves_a_dump() {
    let _turn = in_turn();
    let (workspace, dumps) = workspace();
    let run = run(&workspace, "", "a thread panics");
    assert!(run.status.success(), "{}", printed(&run));
    let names = fs::read_to_string(journal(&dumps).with_extension("names")).unwrap();
    let window = member(&names, "window");
    assert!(
        window.contains("\"trigger\": \"panic\", \"reason\": \"mailer panicked at src/main.rs:"),
        "{window}"
    );
    let panics = member(&names, "panics");
    assert!(
        panics.starts_with("[{\"text\": \"no stamps\", "),
        "{panics}"
    );
    assert!(panics.contains("\"actor\": 0"), "{panics}");
}

#[test]
fn a_process_that_ends_with_a_panic_waits_for_its_dump() {
    let _turn = in_turn();
    let (workspace, dumps) = workspace();
    let run = run(&workspace, "", "panic");
    assert_eq!(run.status.code(), Some(101), "{}", printed(&run));
    let names = fs::read_to_string(journal(&dumps).with_extension("names")).unwrap();
    let window = member(&names, "window");
    assert!(
        window.contains("\"reason\": \"main panicked at src/main.rs:"),
        "{window}"
    );
}
