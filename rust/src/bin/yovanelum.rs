//! The command `yovanelum`: says why values were lost in the run of a journal, writes the page that
//! draws the run, and starts the debug adapter.

use std::env;
use std::ffi::OsString;
use std::io::{self, Write};
use std::path::PathBuf;
use std::process::{Command, ExitCode};

/// The page, so that the installed command needs no other file.
const PAGE: &[u8] = include_bytes!("../../built/yovanelum.html");

/// The debug adapter. It is a package of its own, since it has dependencies.
const ADAPTER: &str = "yovanelum-dap";

fn main() -> ExitCode {
    let words: Vec<OsString> = env::args_os().skip(1).collect();
    if words.first().is_some_and(|word| word == "dap") {
        return start_adapter(&words[1..]);
    }
    let mut out = io::stdout().lock();
    if words == ["--version"] || words == ["-V"] {
        return tell_version(&mut out);
    }
    let status = yovanelum::command(words, PAGE, &mut out, &mut io::stderr());
    let _ = out.flush();
    ExitCode::from(status)
}

/// Prints the version, as cargo's own tools do.
fn tell_version(out: &mut impl Write) -> ExitCode {
    let version = concat!("yovanelum ", env!("CARGO_PKG_VERSION"), "\n");
    let told = out.write_all(version.as_bytes()).and_then(|()| out.flush());
    match told {
        Ok(()) => ExitCode::SUCCESS,
        Err(error) => {
            eprintln!("write error: {error}");
            ExitCode::from(4)
        }
    }
}

/// Starts the adapter that is beside this program, or else that of the PATH, and ends with its
/// status.
fn start_adapter(words: &[OsString]) -> ExitCode {
    match Command::new(adapter()).args(words).status() {
        Ok(status) => ExitCode::from(status.code().map_or(1, |code| code as u8)),
        Err(error) if error.kind() == io::ErrorKind::NotFound => {
            eprintln!(
                "yovanelum: `dap` needs the program {ADAPTER}: cargo install --path rust/dap"
            );
            ExitCode::from(69)
        }
        Err(error) => {
            eprintln!("yovanelum: {ADAPTER} can't be started: {error}");
            ExitCode::from(69)
        }
    }
}

fn adapter() -> PathBuf {
    let name = format!("{ADAPTER}{}", env::consts::EXE_SUFFIX);
    let beside = env::current_exe()
        .ok()
        .map(|this| this.with_file_name(&name));
    beside
        .filter(|path| path.is_file())
        .unwrap_or_else(|| PathBuf::from(name))
}
