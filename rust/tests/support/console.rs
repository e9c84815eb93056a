//! The program `ttd`, which judges journals, and its console; also for the crate's own tests.

use std::env;
use std::ffi::{OsStr, OsString};
use std::io::Write;
use std::path::Path;
use std::process::{Command, Stdio};
use std::thread;

/// The program of a checkout, in the folder `rust`. It runs on Linux on x86-64.
const BUILT: &str = "built/x86_64-linux/ttd";

/// Returns the program: the one that the variable `YOVANELUM_TTD` names, or else that of the
/// checkout. `None` where no program can be started: on WebAssembly, and under Miri.
///
/// # Panics
///
/// If there is none, since a test would then compare nothing.
pub fn ttd() -> Option<OsString> {
    if cfg!(any(target_family = "wasm", miri)) {
        return None;
    }
    let is_here = cfg!(all(target_os = "linux", target_arch = "x86_64"));
    let here = Path::new(env!("CARGO_MANIFEST_DIR"));
    let above = here.ancestors().map(|folder| folder.join(BUILT));
    let built = above.filter(|_| is_here).find(|path| path.exists());
    Some(chosen(env::var_os("YOVANELUM_TTD"), built.as_deref()))
}

/// The named program, or else the built one, if its file is there.
pub fn chosen(named: Option<OsString>, built: Option<&Path>) -> OsString {
    let built = || built.filter(|path| path.exists()).map(OsString::from);
    named.or_else(built).expect(
        "no program judges this journal: set YOVANELUM_TTD to a `ttd`, such as \
         `cargo build --manifest-path ttd/Cargo.toml` makes in a checkout's folder rust",
    )
}

/// Returns what `ttd debug` writes for these commands over a journal. They are written beside,
/// since they may be more than a pipe holds.
pub fn written(ttd: &OsStr, journal: &Path, commands: &str) -> String {
    let mut walk = Command::new(ttd)
        .arg("debug")
        .arg(journal)
        .stdin(Stdio::piped())
        .stdout(Stdio::piped())
        .spawn()
        .unwrap();
    let mut input = walk.stdin.take().unwrap();
    let commands = commands.to_string();
    let writer = thread::spawn(move || input.write_all(commands.as_bytes()));
    let written = walk.wait_with_output().unwrap().stdout;
    writer.join().unwrap().unwrap();
    String::from_utf8(written).unwrap()
}
