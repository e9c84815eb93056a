//! How wide the terminal is that a report is written to.
#![allow(unsafe_code)]

use std::env;

/// The width where nothing says it.
const USUAL: usize = 80;

/// Returns how many columns the terminal has: as the system says, or else the variable `COLUMNS`,
/// or else 80.
pub fn width() -> usize {
    let named = || env::var("COLUMNS").ok()?.parse().ok();
    let width = of_system().or_else(named);
    width.filter(|width| *width > 0).unwrap_or(USUAL)
}

/// The request for the window of a terminal, where its number is known. On other processors Linux
/// has another one.
#[cfg(unix)]
const ASK: Option<usize> = if cfg!(miri) {
    None
} else if cfg!(all(
    target_os = "linux",
    any(
        target_arch = "x86_64",
        target_arch = "aarch64",
        target_arch = "x86",
        target_arch = "arm"
    )
)) {
    Some(0x5413)
} else if cfg!(target_os = "macos") {
    Some(0x4008_7468)
} else {
    None
};

/// Asks for the window of standard output, and where that is no terminal, of standard error and of
/// standard input.
#[cfg(unix)]
fn of_system() -> Option<usize> {
    // As C has it: rows, columns, and two numbers of points.
    type Window = [u16; 4];
    let ask = ASK?;
    unsafe extern "C" {
        fn ioctl(file: i32, request: usize, ...) -> i32;
    }
    [1, 2, 0].iter().find_map(|file| {
        let mut window: Window = [0; 4];
        // SAFETY: the request writes a window, which is alive during the call. A file that is no
        // terminal, or isn't open, is refused.
        let is_known = unsafe { ioctl(*file, ask, &raw mut window) } == 0;
        (is_known && window[1] > 0).then_some(window[1].into())
    })
}

#[cfg(not(unix))]
fn of_system() -> Option<usize> {
    None
}
