//! The C library's functions by which Rust's makes files, folders and threads, under their own
//! names: a program that has this module is linked with these. While a closure runs, some of their
//! calls are refused, and a write to a file moves half of what it is given, if that is much. What
//! is written to standard error is kept.

use std::ffi::{CStr, OsStr, c_char, c_int, c_void};
use std::os::unix::ffi::OsStrExt;
use std::path::Path;
use std::sync::Mutex;
use std::thread::{self, ThreadId};
use std::{mem, slice};

/// Which calls are refused.
#[derive(Clone, Copy, Debug)]
pub struct Refusal {
    /// How many are allowed first.
    pub allowed: usize,
    /// Whether all others are refused, and not one alone.
    pub all: bool,
    /// The number of the error.
    pub error: c_int,
}

/// What came of a closure whose calls were refused.
#[derive(Default)]
pub struct Seen {
    /// The calls that were refused.
    pub refused: Vec<&'static str>,
    /// What was written to standard error.
    pub said: String,
}

struct Refusing {
    refusal: Refusal,
    // Of this thread the creation of others is refused, and of all others the rest.
    by: ThreadId,
    counted: usize,
    seen: Seen,
}

static REFUSING: Mutex<Option<Refusing>> = Mutex::new(None);

/// Runs a closure, and refuses these calls: of this thread those that create a thread, and all
/// others of the others.
pub fn refusing<T>(refusal: Refusal, run: impl FnOnce() -> T) -> (T, Seen) {
    *REFUSING.lock().unwrap() = Some(Refusing {
        refusal,
        by: thread::current().id(),
        counted: 0,
        seen: Seen::default(),
    });
    let result = run();
    let refusing = REFUSING.lock().unwrap().take();
    (result, refusing.unwrap().seen)
}

impl Refusing {
    fn is_refused(&mut self, call: &'static str) -> bool {
        let is_of_one = thread::current().id() == self.by;
        if is_of_one != (call == "pthread_create") {
            return false;
        }
        self.counted += 1;
        let allowed = self.refusal.allowed;
        let is_refused = self.counted == allowed + 1 || self.refusal.all && self.counted > allowed;
        if is_refused {
            self.seen.refused.push(call);
        }
        is_refused
    }
}

/// Returns the number of the error with which a call is refused, if it is.
fn refused(call: &'static str) -> Option<c_int> {
    let mut refusing = REFUSING.lock().unwrap();
    let refusing = refusing.as_mut()?;
    refusing.is_refused(call).then_some(refusing.refusal.error)
}

/// How many bytes a write moves at once.
const MUCH: usize = 4096;

/// Keeps what is written to standard error. Returns how much of what is written to a file is moved.
fn moved(file: c_int, bytes: &[u8]) -> usize {
    let mut refusing = REFUSING.lock().unwrap();
    match refusing.as_mut() {
        Some(refusing) if file == 2 => {
            refusing.seen.said += &String::from_utf8_lossy(bytes);
            bytes.len()
        }
        Some(_) if bytes.len() > MUCH => bytes.len() / 2,
        _ => bytes.len(),
    }
}

unsafe extern "C" {
    fn dlsym(library: *mut c_void, name: *const c_char) -> *mut c_void;
    fn __errno_location() -> *mut c_int;
}

/// Returns the next function of this name, which is the C library's own.
///
/// # Safety
///
/// `F` is its type.
unsafe fn own<F>(name: &CStr) -> F {
    const RTLD_NEXT: usize = usize::MAX;
    // SAFETY: the name is a text of C.
    let own = unsafe { dlsym(RTLD_NEXT as *mut c_void, name.as_ptr()) };
    assert!(!own.is_null());
    // SAFETY: it is the address of a function with this type.
    unsafe { mem::transmute_copy(&own) }
}

/// Sets the number of the error of this thread's last call.
fn set_error(error: c_int) {
    // SAFETY: it is the address of this thread's number.
    unsafe { *__errno_location() = error };
}

/// Functions that return this where they are refused. The C library's own are called otherwise.
macro_rules! refusable {
    ($($call:ident($($arg:ident: $type:ty),*) -> $result:ty, or $failed:expr;)*) => {
        $(#[unsafe(no_mangle)]
        unsafe extern "C" fn $call($($arg: $type),*) -> $result {
            if let Some(error) = refused(stringify!($call)) {
                set_error(error);
                return $failed;
            }
            type Own = unsafe extern "C" fn($($type),*) -> $result;
            let name = CStr::from_bytes_with_nul(concat!(stringify!($call), "\0").as_bytes());
            // SAFETY: this is its type, and the caller upholds what it requires.
            unsafe { own::<Own>(name.unwrap())($($arg),*) }
        })*
    };
}

refusable! {
    rename(from: *const c_char, to: *const c_char) -> c_int, or -1;
    unlink(path: *const c_char) -> c_int, or -1;
    opendir(path: *const c_char) -> *mut c_void, or std::ptr::null_mut();
}

type MakeFolder = unsafe extern "C" fn(*const c_char, u32) -> c_int;

// That a folder is there is said before anything else.
#[unsafe(no_mangle)]
unsafe extern "C" fn mkdir(path: *const c_char, mode: u32) -> c_int {
    // SAFETY: the caller passes a text of C.
    let folder = OsStr::from_bytes(unsafe { CStr::from_ptr(path) }.to_bytes());
    if !Path::new(folder).exists() {
        if let Some(error) = refused("mkdir") {
            set_error(error);
            return -1;
        }
    }
    // SAFETY: this is its type, and the caller upholds what it requires.
    unsafe { own::<MakeFolder>(c"mkdir")(path, mode) }
}

/// The way in which a file is opened: its last bits say that it is only read.
const WAY: c_int = 3;

type Open = unsafe extern "C" fn(*const c_char, c_int, ...) -> c_int;

// In C it takes any number of arguments. Where this is linked, they are passed in the same way.
#[unsafe(no_mangle)]
unsafe extern "C" fn open64(path: *const c_char, how: c_int, mode: c_int) -> c_int {
    let call = if how & WAY == 0 {
        "open to read"
    } else {
        "open"
    };
    if let Some(error) = refused(call) {
        set_error(error);
        return -1;
    }
    // SAFETY: this is its type, and the caller upholds what it requires.
    unsafe { own::<Open>(c"open64")(path, how, mode) }
}

type Write = unsafe extern "C" fn(c_int, *const c_void, usize) -> isize;

#[unsafe(no_mangle)]
unsafe extern "C" fn write(file: c_int, from: *const c_void, count: usize) -> isize {
    if file > 2 {
        if let Some(error) = refused("write") {
            set_error(error);
            return -1;
        }
    }
    // SAFETY: the caller passes `count` bytes.
    let moved = moved(file, unsafe {
        slice::from_raw_parts(from.cast::<u8>(), count)
    });
    // SAFETY: this is its type, and the caller upholds what it requires.
    unsafe { own::<Write>(c"write")(file, from, moved) }
}

type Begin = extern "C" fn(*mut c_void) -> *mut c_void;
type Create = unsafe extern "C" fn(*mut usize, *const c_void, Begin, *mut c_void) -> c_int;

#[unsafe(no_mangle)]
unsafe extern "C" fn pthread_create(
    thread: *mut usize,
    how: *const c_void,
    begin: Begin,
    with: *mut c_void,
) -> c_int {
    if let Some(error) = refused("pthread_create") {
        return error;
    }
    // SAFETY: this is its type, and the caller upholds what it requires.
    unsafe { own::<Create>(c"pthread_create")(thread, how, begin, with) }
}
