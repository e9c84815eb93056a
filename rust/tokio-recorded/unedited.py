"""Packages that nobody has edited, and `cargo yovanelum` over them: for the scripts `command*` beside this file. Their first word is the folder that has
`yovanelum/rust` as users have it. The variable YOVANELUM_CHECKS has a pattern of the checks to run."""
import os
import re
import shutil
import subprocess
import sys
import time

FOLDER = os.path.realpath(sys.argv[1])
CRATE = os.path.realpath(os.path.join(FOLDER, "yovanelum", "rust"))
HERE = os.path.join(FOLDER, "command")
SHOP = os.path.join(HERE, "shop")
TARGET = os.environ.get("CARGO_TARGET_DIR") or os.path.join(FOLDER, "target")
OWN = os.path.join(TARGET, "yovanelum")
# Where Debian's packages have the sources of crates.
with open(os.path.join(FOLDER, ".cargo", "config.toml"), encoding="utf-8") as config:
    REGISTRY = re.search(r'^directory = "(.*)"$', config.read(), re.M).group(1)

MANIFEST = """[package]
name = "%s"
version = "0.0.0"
edition = "2021"

[dependencies]
%s
"""
TOKIO = 'tokio = { version = "1", features = ["macros", "rt-multi-thread", "sync", "time"] }'
LIBRARY = """use tokio::sync::broadcast;

/// Announces an order to everyone who listens, and returns how many do.
pub fn announce(orders: &broadcast::Sender<u32>, id: u32) -> usize {
    orders.send(id).unwrap_or(0)
}
"""
# The first order is lost to the third, since the channel retains two. So each of these tests fails by a lag of one.
FAILING = """use tokio::sync::broadcast;

#[tokio::test]
async fn on_one_thread() {
    let (orders, mut audit) = broadcast::channel(2);
    for id in [71, 72, 73] {
        shop::announce(&orders, id);
    }
    assert_eq!(audit.recv().await, Ok(71));
}

#[tokio::test(flavor = "multi_thread", worker_threads = 2)]
async fn in_a_task() {
    let audited = tokio::spawn(async {
        let (orders, mut audit) = broadcast::channel(2);
        for id in [71, 72, 73] {
            shop::announce(&orders, id);
        }
        audit.recv().await
    });
    assert_eq!(audited.await.unwrap(), Ok(71));
}

#[test]
fn without_a_runtime() {
    let (orders, mut audit) = broadcast::channel(2);
    for id in [71, 72, 73] {
        shop::announce(&orders, id);
    }
    assert_eq!(audit.try_recv(), Ok(71));
}

mod after {
    use super::*;

    #[tokio::test]
    async fn a_caught_panic() {
        let (orders, mut audit) = broadcast::channel(2);
        let caught = std::panic::catch_unwind(|| panic!("this one is caught"));
        assert!(caught.is_err());
        for id in [71, 72, 73] {
            shop::announce(&orders, id);
        }
        assert_eq!(audit.recv().await, Ok(71));
    }
}
"""
NAMES = ["on_one_thread", "in_a_task", "without_a_runtime", "after::a_caught_panic"]
# Each test loses the first order, which none panics at. The last two handle that, and pass.
ERRORS = """use std::error::Error;
use std::thread;
use tokio::sync::broadcast::{self, error::TryRecvError};

#[derive(Debug)]
#[allow(dead_code)]
enum Missing {
    Order { id: u32, why: TryRecvError },
    All,
}

#[test]
fn of_any_kind() -> Result<(), Box<dyn Error>> {
    let (orders, mut audit) = broadcast::channel(2);
    for id in [71, 72, 73] {
        shop::announce(&orders, id);
    }
    let first = thread::spawn(move || audit.try_recv()).join().unwrap()?;
    assert_eq!(first, 71);
    Ok(())
}

#[test]
fn of_the_channel() -> Result<(), TryRecvError> {
    let (orders, mut audit) = broadcast::channel(2);
    for id in [71, 72, 73] {
        shop::announce(&orders, id);
    }
    audit.try_recv().map(drop)
}

#[test]
fn of_its_own_type() -> Result<(), Missing> {
    let (orders, mut audit) = broadcast::channel(2);
    for id in [71, 72, 73] {
        shop::announce(&orders, id);
    }
    let why = thread::spawn(move || audit.try_recv()).join().unwrap();
    why.map(drop).map_err(|why| Missing::Order { id: 71, why })
}

#[tokio::test]
async fn of_its_own_type_on_tokio() -> Result<(), Missing> {
    let (orders, mut audit) = broadcast::channel(2);
    for id in [71, 72, 73] {
        shop::announce(&orders, id);
    }
    audit.try_recv().map(drop).map_err(|why| Missing::Order { id: 71, why })
}

#[tokio::test]
async fn without_a_word_of_it() -> Result<(), Missing> {
    let (orders, mut audit) = broadcast::channel(2);
    for id in [71, 72, 73] {
        shop::announce(&orders, id);
    }
    if audit.recv().await.is_ok() { Ok(()) } else { Err(Missing::All) }
}

#[test]
fn a_text() -> Result<(), String> {
    let thread = thread::spawn(move || {
        let (orders, mut audit) = broadcast::channel(2);
        for id in [71, 72, 73] {
            shop::announce(&orders, id);
        }
        audit.try_recv().is_ok()
    });
    if thread.join().unwrap() { Ok(()) } else { Err("order 71 is missing".to_string()) }
}

#[test]
fn passes_and_writes_it() -> Result<(), TryRecvError> {
    let (orders, mut audit) = broadcast::channel(2);
    for id in [71, 72, 73] {
        shop::announce(&orders, id);
    }
    let lost = audit.try_recv();
    drop((orders, audit));
    eprintln!("Error: {:?}", lost.unwrap_err());
    Ok(())
}

#[tokio::test]
async fn passes_on_tokio() -> Result<(), Missing> {
    let (orders, mut audit) = broadcast::channel(2);
    for id in [71, 72, 73] {
        shop::announce(&orders, id);
    }
    println!("{}", audit.try_recv().unwrap_err());
    Ok(())
}
"""
# What is known of these is the text that the harness writes of a channel's error. What a future of tokio's returns is seen.
EXPLAINED = ["of_any_kind", "of_its_own_type", "of_the_channel"]
SEEN = ["of_its_own_type_on_tokio", "without_a_word_of_it"]
HANGING = """#[tokio::test]
async fn nobody_answers() {
    let (state, mut seen) = tokio::sync::watch::channel("loading");
    seen.changed().await.unwrap();
    drop(state);
}
"""


def write(folder, files):
    shutil.rmtree(folder, ignore_errors=True)
    for name, text in files.items():
        path = os.path.join(folder, name)
        os.makedirs(os.path.dirname(path), exist_ok=True)
        with open(path, "w", encoding="utf-8") as file:
            file.write(text)


def write_shop(tests, dependencies=TOKIO, manifest=""):
    """Writes the package, with a lock file as cargo makes it."""
    write(SHOP, {"Cargo.toml": MANIFEST % ("shop", dependencies) + manifest, "src/lib.rs": LIBRARY, "tests/orders.rs": tests})
    subprocess.run(["cargo", "generate-lockfile"], cwd=SHOP, env=environment(), check=True, stderr=subprocess.DEVNULL)
    remove_reports()


def remove_reports():
    for name in os.listdir(OWN) if os.path.isdir(OWN) else []:
        if name != "stand-in":
            shutil.rmtree(os.path.join(OWN, name))


def environment(**more):
    env = {**os.environ, "CARGO_TARGET_DIR": TARGET, "RUST_BACKTRACE": "0", "CARGO_NET_OFFLINE": "true", **more}
    for name in [name for name in env if name.startswith(("YOVANELUM_", "GIT_"))] + ["RUSTFLAGS"]:
        if name not in more:
            env.pop(name, None)
    env["PATH"] = os.path.join(TARGET, "debug") + os.pathsep + env["PATH"]
    return env


def run(line, folder=SHOP, **more):
    """What a command prints in a folder, and its status."""
    ran = subprocess.run(line, shell=True, cwd=folder, env=environment(**more), text=True, stdout=subprocess.PIPE, stderr=subprocess.STDOUT, timeout=1800)
    return ran.stdout, ran.returncode


def files(folder=SHOP):
    """The bytes of each file of a package."""
    found = {}
    for here, _, names in os.walk(folder):
        for name in names:
            with open(os.path.join(here, name), "rb") as file:
                found[os.path.relpath(os.path.join(here, name), folder)] = file.read()
    return found


def reports(package="shop"):
    return sorted(name for _, _, names in os.walk(os.path.join(OWN, package)) for name in names if name.endswith(".journal"))


def report_of(name, printed):
    """What is printed of one test."""
    found = re.search(rf"^---- {re.escape(name)} stdout ----\n(.*?)(?=^---- |^failures:$)", printed, re.M | re.S)
    assert found, printed
    return found.group(1)


def reported_at_end(name, printed, what):
    """The report of a test that returns an error, of which nothing but its text is known. It is printed where the thread or the process ends."""
    found = re.findall(rf"^failed: {re.escape(name)} returned {re.escape(what)}.*?^replay: cargo yovanelum replay {re.escape(name)}$", printed, re.M | re.S)
    assert len(found) == 1 and "error: `audit` lost 1 of 3 values of `orders` (capacity 2)\n" in found[0], printed
    return found[0]


def reported_with_output(name, printed):
    """The report of a test that returns an error of its own type, among what it prints, and before what the harness prints of the error."""
    report = report_of(name, printed)
    assert report.count(f"failed: {name} at tests/orders.rs:") == 1 and " returned an error; " in report, report
    assert "\nerror: `audit` lost 1 of 3 values of `orders` (capacity 2)\n" in report, report
    assert report.index(f"\nreplay: cargo yovanelum replay {name}\n") < report.index("Error: "), report


def results(printed):
    """How many tests of each program pass and fail."""
    return re.findall(r"^test result: \w+\. (\d+) passed; (\d+) failed; (\d+) ignored", printed, re.M)


def main(checks):
    """Builds the command, makes these checks, and prints how many passed."""
    os.makedirs(HERE, exist_ok=True)
    built = subprocess.run(["cargo", "build", "-q", "--offline", "--bin", "cargo-yovanelum"], cwd=CRATE, env=environment(), check=False)
    only = os.environ.get("YOVANELUM_CHECKS", "")
    checks = [check for check in checks if re.search(only, check.__name__)]
    failed = [] if built.returncode == 0 else [f"the command isn't built: {built.returncode}"]
    for check in checks if not failed else []:
        began = time.monotonic()
        try:
            check()
        except (AssertionError, subprocess.SubprocessError) as fault:
            failed.append(f"{check.__name__}: {fault}")
            print(f"tokio-recorded/command: it failed: {failed[-1]}", file=sys.stderr)
        print(f"tokio-recorded/command: {check.__name__}, {time.monotonic() - began:.0f} s", file=sys.stderr, flush=True)
    for line in failed:
        print(f"rust/tokio-recorded/command: {line}")
    print(f"{len(checks) - len(failed)} passed, {len(failed)} failed")
    return 1 if failed else 0
