//! Packages outside of this one, of which cargo runs the tests: where the files of each are, and
//! what brings its failure back.
// They are built without optimization in either build of this test, so one of the two runs them.
#![cfg(all(unix, debug_assertions))]

mod outside {
    mod whole_files;
}
mod support;

use std::collections::BTreeMap;
use std::fs;
use std::path::{Path, PathBuf};
use std::sync::OnceLock;
use support::named::{checksum, member};
use support::rounds;
use support::workspace::{Workspace, in_turn, printed};

/// Two bidders, of whom Bob is late. The test fails where the variable makes Ann wait for him.
const RACE: &str = r#"
/// A test fails where Bob is the first.
///
/// ```
/// my_shop::race("race");
/// ```
#[track_caller]
pub fn race(name: &str) {
    let recorder = yovanelum::Recorder::for_test(name);
    let (bids, mut auction) = yovanelum::broadcast::channel(4);
    let house = std::env::var("HOUSE");
    recorder.name(&bids, house.as_deref().unwrap_or("bids")).show(&bids, |bid: &&str| bid.to_string());
    if house.is_ok() {
        eprintln!("open");
        std::io::stdin().read_line(&mut String::new()).unwrap();
    }
    let ann_waits = std::env::var("LATE").is_ok_and(|late| late == "Ann");
    let (bob_has_bid, wait_for_bob) = std::sync::mpsc::channel();
    let ann = bids.clone();
    let ann = std::thread::Builder::new().name("Ann".to_string()).spawn(move || {
        if ann_waits {
            wait_for_bob.recv().unwrap();
        }
        ann.send("Ann").unwrap();
    });
    let bob = bids.clone();
    let bob = std::thread::Builder::new().name("Bob".to_string()).spawn(move || {
        if !ann_waits {
            std::thread::sleep(std::time::Duration::from_millis(20));
        }
        bob.send("Bob").unwrap();
        let _ = bob_has_bid.send(());
    });
    let bidders = [ann, bob];
    for bidder in bidders {
        bidder.unwrap().join().unwrap();
    }
    assert_eq!(auction.try_recv().unwrap(), "Ann");
}

#[cfg(test)]
mod tests {
    #[test]
    fn ann_is_first() {
        crate::race("race");
    }
}
"#;

const TEST: &str = "#[test]\nfn ann_is_first() {\n    my_shop::race(\"race\");\n}\n";

const OTHERS: &str = "
#[test]
fn of_a_name() {
    my_shop::race(\"a/b: it's 5 % 'cheap'\");
}

#[test]
fn of_another() {
    my_shop::race(\"a_b: it's 5 % 'cheap'\");
}

#[test]
#[ignore]
fn ignored() {
    my_shop::race(\"ignored\");
}
";

const ABORTS: &str = r#"
fn main() {
    if std::env::var_os("HOOK_ABORTS").is_some() {
        std::panic::set_hook(Box::new(|_| std::process::abort()));
    }
    let recorder = yovanelum::Recorder::for_test("aborts");
    let (state, _rx) = yovanelum::watch::channel(1);
    recorder.name(&state, "state");
    state.send(2).unwrap();
    state.send_modify(|_| panic!("while the value is locked"));
}
"#;

/// The workspace, which is built where one of its settings says, in a folder with a blank.
fn workspace() -> &'static Workspace {
    static WORKSPACE: OnceLock<Workspace> = OnceLock::new();
    WORKSPACE.get_or_init(|| {
        let bin = format!("fn main() {{}}\n\n{TEST}");
        let example = format!("fn main() {{\n    my_shop::race(\"main\");\n}}\n\n{TEST}");
        let tests = format!("{TEST}{OTHERS}");
        let only_with_cfg = format!("#![cfg(recorded)]\n{TEST}");
        Workspace::new(
            "outside",
            &[
                ("Cargo.toml", "[workspace]\nmembers = [\"shop\", \"depot\"]\nresolver = \"2\"\n\n[profile.dev]\ndebug = false\nincremental = false\n"),
                (".cargo/config.toml", "[build]\ntarget-dir = \"made here\"\n"),
                ("shop/Cargo.toml", "[package]\nname = \"my-shop\"\nversion = \"0.0.0\"\nedition = \"2021\"\n\n[dependencies]\nCRATE\n\n[[bin]]\nname = \"till\"\npath = \"src/bin/till.rs\"\n"),
                ("shop/src/lib.rs", RACE),
                ("shop/src/bin/till.rs", &bin),
                ("shop/tests/my-bus.rs", &tests),
                ("shop/examples/demo.rs", &example),
                ("shop/examples/aborts.rs", ABORTS),
                ("depot/Cargo.toml", "[package]\nname = \"depot\"\nversion = \"0.0.0\"\nedition = \"2021\"\n\n[dependencies]\nmy-shop = { path = \"../shop\" }\n\n[lints.rust]\nunexpected_cfgs = \"allow\"\n"),
                ("depot/src/lib.rs", ""),
                ("depot/tests/my-bus.rs", TEST),
                ("depot/tests/flagged.rs", &only_with_cfg),
            ],
        )
    })
}

/// The folder with the files of tests.
fn files() -> PathBuf {
    workspace().0.join("made here/yovanelum")
}

/// Runs a command in which Ann is late. Asserts that it fails, and returns all that it prints.
fn failed(line: &str) -> String {
    let run = workspace().shell(line).env("LATE", "Ann").output().unwrap();
    assert!(!run.status.success(), "{line}: {}", printed(&run));
    printed(&run)
}

/// Returns the commands by which the failing tests of a run are replayed.
fn replay_lines(printed: &str) -> Vec<String> {
    let lines = printed.lines().map(str::trim);
    let lines = lines.filter_map(|line| line.strip_prefix("replay: "));
    lines.map(String::from).collect()
}

/// Asserts that this command makes all calls of the journal again and fails in the same way, each
/// time that it is pasted.
fn assert_brings_back(line: &str, name: &str) {
    for _ in 0..rounds(2, 10) {
        let run = workspace().shell(line).output().unwrap();
        let said = format!(
            "replay of {name}.journal: all 9 calls in the recorded order; the same failure"
        );
        let said_is_seen = printed(&run).contains(&said);
        assert!(
            !run.status.success() && said_is_seen,
            "{line}: {}",
            printed(&run)
        );
    }
}

/// Asserts that a test has whole files: the names are of this journal, and the page has both.
fn assert_whole(journal: &Path, package: &str, target: &str) {
    let text = fs::read(journal).unwrap();
    let names = fs::read_to_string(journal.with_extension("names")).unwrap();
    assert_eq!(
        member(&names, "journal"),
        format!("\"{}\"", checksum(&text))
    );
    let start = format!("{{\"package\": \"{package}\", \"target\": \"{target}\", \"name\": ");
    assert!(member(&names, "test").starts_with(&start), "{names}");
    let page = fs::read_to_string(journal.with_extension("html")).unwrap();
    let text = String::from_utf8(text).unwrap();
    assert!(page.contains(&format!("id=\"journal\">\n{text}</script>\n")));
    assert!(page.contains(&format!("\n{}\n</script>\n", base64(names.as_bytes()))));
}

fn base64(bytes: &[u8]) -> String {
    let digits = b"ABCDEFGHIJKLMNOPQRSTUVWXYZabcdefghijklmnopqrstuvwxyz0123456789+/";
    let mut out = String::new();
    for group in bytes.chunks(3) {
        let bits = (0..3).fold(0, |bits, at| {
            bits << 8 | usize::from(*group.get(at).unwrap_or(&0))
        });
        for at in 0..4 {
            let digit = digits[bits >> (18 - 6 * at) & 63] as char;
            out.push(if at <= group.len() { digit } else { '=' });
        }
    }
    out
}

/// Returns the program that cargo has built of a test of this package.
fn program(package: &str, test: &str) -> PathBuf {
    let line = format!("cargo test -p {package} --test {test} --no-run --message-format=json");
    let built = workspace().shell(&line).output().unwrap();
    let text = String::from_utf8(built.stdout).unwrap();
    // The programs of the package are built too, in any order.
    let built = text.split("\"executable\":\"").skip(1);
    let mut built = built.map(|rest| PathBuf::from(rest.split_once('"').unwrap().0));
    let start = format!("{}-", test.replace('-', "_"));
    let is_test = |path: &PathBuf| {
        let name = path.file_name().unwrap().to_str().unwrap();
        name.starts_with(&start)
    };
    built.find(is_test).unwrap()
}

#[test]
fn each_target_has_its_own_files_and_its_line_brings_the_failure_back() {
    let _turn = in_turn();
    let _ = fs::remove_dir_all(files());
    let said = failed("cargo test --workspace --all-targets --no-fail-fast")
        + &failed("CARGO_TARGET_DIR='made here' cargo test -p my-shop --doc")
        + &failed("cd depot && cargo test --test my-bus -- ann")
        + &failed("cargo test -p my-shop -- --ignored");
    let at = |folder: &str, name: &str| files().join(folder).join(format!("{name}.journal"));
    let flag = |words: &str| format!("cargo test -p {words}");
    let wanted: BTreeMap<_, _> = [
        (
            "my-shop/lib",
            "race",
            "my-shop --lib -- tests::ann_is_first --exact",
        ),
        (
            "my-shop/bin-till",
            "race",
            "my-shop --bin till -- ann_is_first --exact",
        ),
        (
            "my-shop/test-my-bus",
            "race",
            "my-shop --test my-bus -- ann_is_first --exact",
        ),
        (
            "my-shop/test-my-bus",
            "a%2Fb%3A it%27s 5 %25 %27cheap%27",
            "my-shop --test my-bus -- of_a_name --exact",
        ),
        (
            "my-shop/test-my-bus",
            "a_b%3A it%27s 5 %25 %27cheap%27",
            "my-shop --test my-bus -- of_another --exact",
        ),
        (
            "my-shop/test-my-bus",
            "ignored",
            "my-shop --test my-bus -- ignored --exact --include-ignored",
        ),
        (
            "my-shop/example-demo",
            "race",
            "my-shop --example demo -- ann_is_first --exact",
        ),
        ("my-shop/doc", "race", "my-shop --doc"),
        (
            "depot/test-my-bus",
            "race",
            "depot --test my-bus -- ann_is_first --exact",
        ),
    ]
    .map(|(folder, name, words)| ((folder, name), flag(words)))
    .into();
    let lines = replay_lines(&said);
    for ((folder, name), command) in wanted {
        let journal = at(folder, name);
        let (package, target) = folder.split_once('/').unwrap();
        let target = match target {
            "lib" | "doc" => "my_shop",
            target => target.split_once('-').unwrap().1,
        };
        assert_whole(&journal, package, target);
        let line = format!("YOVANELUM_REPLAY='{}' {command}", journal.display());
        assert!(lines.contains(&line), "{line} in {lines:#?}");
        assert_brings_back(&line, name);
    }
}

#[test]
#[ignore = "rust/test slow runs it: the crate is compiled once more"]
fn a_line_has_the_flags_and_the_settings_of_the_build() {
    let _turn = in_turn();
    let test = "-p depot --test flagged -- ann_is_first --exact";
    for (command, told) in [
        (
            "RUSTFLAGS='--cfg recorded' cargo test",
            " RUSTFLAGS='--cfg recorded' cargo test ",
        ),
        (
            "cargo test --config 'build.rustflags=[\"--cfg\",\"recorded\"]' -q --manifest-path depot/Cargo.toml",
            " cargo test --config 'build.rustflags=[\"--cfg\",\"recorded\"]' --manifest-path depot/Cargo.toml ",
        ),
    ] {
        let said = failed(&format!("{command} -p depot --test flagged"));
        let lines = replay_lines(&said);
        let [line] = &lines[..] else {
            panic!("{said}");
        };
        assert!(line.ends_with(&format!("{told}{test}")), "{line}");
        assert_brings_back(line, "race");
    }
}

#[test]
fn a_program_that_no_cargo_runs_is_replayed_as_it_was_started() {
    let _turn = in_turn();
    let program = program("depot", "my-bus");
    let quoted = format!("'{}'", program.display());
    let said = failed(&format!("cd / && {quoted} ann --nocapture"));
    let journal = files().join("depot/test-my-bus/race.journal");
    assert_whole(&journal, "depot", "my-bus");
    let line = format!(
        "YOVANELUM_REPLAY='{}' {quoted} ann_is_first --exact",
        journal.display()
    );
    assert_eq!(replay_lines(&said), [line.as_str()]);
    assert_brings_back(&line, "race");
}

#[test]
#[ignore = "rust/test slow runs it: the crate is compiled once more"]
fn a_program_that_aborts_at_a_panic_leaves_its_files() {
    let _turn = in_turn();
    let aborting = |line: &str| {
        let mut shell = workspace().shell(line);
        shell.env("CARGO_PROFILE_DEV_PANIC", "abort");
        shell.output().unwrap()
    };
    let run = aborting("cargo run -p my-shop --example aborts");
    let said = printed(&run);
    assert!(!run.status.success(), "{said}");
    let journal = files().join("my-shop/example-aborts/aborts.journal");
    assert_whole(&journal, "my-shop", "aborts");
    // The report is below what the panic says.
    let (_, below) = said.split_once("while the value is locked").unwrap();
    assert!(below.contains("look: file://"), "{said}");
    let names = fs::read_to_string(journal.with_extension("names")).unwrap();
    assert!(
        member(&names, "panics").contains("\"while the value is locked\""),
        "{names}"
    );
    let line = format!(
        "YOVANELUM_REPLAY='{}' cargo run -p my-shop --example aborts",
        journal.display()
    );
    assert_eq!(replay_lines(&said), [line.as_str()]);
    let again = aborting(&line);
    let wanted = "yovanelum: replay of aborts.journal: all 1 calls in the recorded order; the same failure\n";
    assert!(printed(&again).contains(wanted), "{}", printed(&again));
    // The hook from before may end the process.
    fs::remove_file(&journal).unwrap();
    let line = "HOOK_ABORTS=1 cargo run -p my-shop --example aborts";
    let hooked = aborting(line);
    assert!(!hooked.status.success());
    assert_whole(&journal, "my-shop", "aborts");
}
