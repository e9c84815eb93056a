//! Whether standard input can be read and standard output written, as the process got them.
//!
//! Rust's runtime opens `/dev/null` in the place of a standard stream that is closed. If the system
//! refuses a read or a write since a stream isn't open for it, Rust's streams take it for done. So
//! what is written there would be lost without a fault. This looks before the runtime does, on
//! Linux, macOS and the BSDs. Elsewhere both streams are taken for open.
#![allow(unsafe_code)]

use std::io;
use std::sync::atomic::{AtomicBool, Ordering};

static IS_READABLE: AtomicBool = AtomicBool::new(true);
static IS_WRITABLE: AtomicBool = AtomicBool::new(true);

/// Returns an error if standard input was closed, or isn't open for reading.
pub(crate) fn check_input() -> io::Result<()> {
    check(&IS_READABLE)
}

/// Returns an error if standard output was closed, or isn't open for writing.
pub(crate) fn check_output() -> io::Result<()> {
    check(&IS_WRITABLE)
}

/// The error of the system, `EBADF`. Its text isn't shown.
fn check(is_open: &AtomicBool) -> io::Result<()> {
    const EBADF: i32 = 9;
    if is_open.load(Ordering::Relaxed) {
        return Ok(());
    }
    Err(io::Error::from_raw_os_error(EBADF))
}

/// Returns an error if standard input is a folder. Nothing is read, and nothing is waited for.
#[cfg(unix)]
pub(crate) fn check_is_no_folder() -> io::Result<()> {
    use std::io::Read;
    use std::os::fd::AsFd;
    let input = io::stdin().as_fd().try_clone_to_owned()?;
    std::fs::File::from(input).read(&mut []).map(drop)
}

/// Returns `Ok`: no folder is opened as a stream there.
#[cfg(not(unix))]
pub(crate) fn check_is_no_folder() -> io::Result<()> {
    Ok(())
}

#[cfg(any(
    target_os = "linux",
    target_os = "android",
    target_os = "freebsd",
    target_os = "netbsd",
    target_os = "openbsd",
    target_os = "dragonfly",
    target_vendor = "apple"
))]
mod before_main {
    use super::{IS_READABLE, IS_WRITABLE, Ordering};
    use std::ffi::c_int;

    unsafe extern "C" {
        fn fcntl(descriptor: c_int, command: c_int, ...) -> c_int;
    }

    /// What Linux calls a descriptor that names a file, and can't read or write it.
    #[cfg(any(target_os = "linux", target_os = "android"))]
    const O_PATH: c_int = 0o10_000_000;
    #[cfg(not(any(target_os = "linux", target_os = "android")))]
    const O_PATH: c_int = 0;

    /// Returns whether a descriptor is open in this way, or in both.
    fn is_open_for(descriptor: c_int, way: c_int) -> bool {
        // They are the same on each of these systems.
        const F_GETFL: c_int = 3;
        const O_ACCMODE: c_int = 3;
        const O_RDWR: c_int = 2;
        // SAFETY: the command has no argument, and writes no memory.
        let flags = unsafe { fcntl(descriptor, F_GETFL) };
        // Linux has a fourth mode, 3: the descriptor can be asked for its device alone.
        let mode = flags & O_ACCMODE;
        flags >= 0 && flags & O_PATH == 0 && (mode == way || mode == O_RDWR)
    }

    extern "C" fn look() {
        const O_RDONLY: c_int = 0;
        const O_WRONLY: c_int = 1;
        IS_READABLE.store(is_open_for(0, O_RDONLY), Ordering::Relaxed);
        IS_WRITABLE.store(is_open_for(1, O_WRONLY), Ordering::Relaxed);
    }

    // SAFETY: the functions of this section are called before `main`, in C's way of calling, by
    // one thread. This one calls nothing of Rust's library that its runtime has to prepare.
    #[used]
    #[cfg_attr(
        target_vendor = "apple",
        unsafe(link_section = "__DATA,__mod_init_func")
    )]
    #[cfg_attr(not(target_vendor = "apple"), unsafe(link_section = ".init_array"))]
    static LOOK: extern "C" fn() = look;
}
