//! Standard streams that are open, and can be neither read nor written: the program says so, and
//! takes nothing for read or written.
#![cfg(target_os = "linux")]

use std::ffi::{CStr, c_int};
use std::os::fd::{FromRawFd, OwnedFd};
use std::process::{Command, Output, Stdio};

/// A descriptor of Linux that names a file alone.
const O_PATH: c_int = 0o10_000_000;

/// The access mode of Linux by which a descriptor can be asked for its device alone.
const NEITHER: c_int = 3;

unsafe extern "C" {
    fn open(path: *const std::ffi::c_char, flags: c_int, ...) -> c_int;
}

/// Opens the null device, which could be read and written.
fn null(flags: c_int) -> OwnedFd {
    const PATH: &CStr = c"/dev/null";
    // SAFETY: the path ends in a zero byte. The descriptor is new, and nobody else's.
    unsafe {
        let descriptor = open(PATH.as_ptr(), flags);
        assert!(descriptor >= 0, "flags {flags:#o}");
        OwnedFd::from_raw_fd(descriptor)
    }
}

/// Runs a session with these streams.
fn session(input: Stdio, output: Stdio) -> Output {
    Command::new(env!("CARGO_BIN_EXE_ttd"))
        .arg("session")
        .stdin(input)
        .stdout(output)
        .stderr(Stdio::piped())
        .spawn()
        .unwrap()
        .wait_with_output()
        .unwrap()
}

#[test]
fn an_input_that_cannot_be_read_is_a_read_fault() {
    for flags in [O_PATH, NEITHER] {
        let ended = session(null(flags).into(), Stdio::piped());
        let told = (ended.status.code(), ended.stderr.as_slice());
        assert_eq!(told, (Some(4), b"read fault\n".as_slice()), "{flags:#o}");
    }
}

#[test]
fn an_output_that_cannot_be_written_is_a_write_fault() {
    for flags in [O_PATH, NEITHER] {
        let ended = session(Stdio::null(), null(flags).into());
        let told = (ended.status.code(), ended.stderr.as_slice());
        assert_eq!(told, (Some(4), b"write fault\n".as_slice()), "{flags:#o}");
    }
}

#[test]
fn streams_that_are_open_both_ways_have_no_fault() {
    const BOTH: c_int = 2;
    let ended = session(null(BOTH).into(), null(BOTH).into());
    // No script has no channels.
    assert_eq!((ended.status.code(), ended.stderr.len()), (Some(1), 0));
}
