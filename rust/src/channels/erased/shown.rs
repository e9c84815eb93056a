//! How a value is formatted: up to a limit, and where user code may panic.

use crate::channels::cut::start_of;
use std::cell::Cell;
use std::fmt::{self, Write};

/// How many bytes of what is formatted are kept at most. The rest isn't formatted, since it would
/// take longer than the call that sends the value.
const MOST_BYTES: usize = 256;

/// The start of what is formatted. Once it is full, it refuses all else.
#[derive(Default)]
struct Start {
    text: String,
    is_full: bool,
}

impl Write for Start {
    fn write_str(&mut self, text: &str) -> fmt::Result {
        if self.is_full {
            return Err(fmt::Error);
        }
        let start = start_of(text, MOST_BYTES - self.text.len());
        self.text.push_str(start);
        self.is_full = start.len() < text.len();
        if self.is_full {
            return Err(fmt::Error);
        }
        Ok(())
    }
}

impl Start {
    /// Returns the text, which says if it was cut.
    fn ended(mut self) -> String {
        if self.is_full {
            let _ = write!(self.text, "… (more than {MOST_BYTES} bytes)");
        }
        self.text
    }
}

/// Formats a value, up to the limit.
pub(super) fn start(value: fmt::Arguments<'_>) -> String {
    let mut start = Start::default();
    // An error is that of the limit, or the value's own, whose text ends there.
    let _ = start.write_fmt(value);
    start.ended()
}

/// A list, whose `Debug` goes through all items also where it is refused.
pub(super) trait List {
    /// Formats it, up to the limit.
    fn start(&self) -> String;
}

impl<T: fmt::Debug> List for Vec<T> {
    fn start(&self) -> String {
        start(format_args!("{:?}", First(self)))
    }
}

/// As many items of a list as fill the limit, since each has a byte at least.
struct First<'a, T>(&'a [T]);

impl<T: fmt::Debug> fmt::Debug for First<'_, T> {
    fn fmt(&self, f: &mut fmt::Formatter<'_>) -> fmt::Result {
        f.debug_list()
            .entries(self.0.iter().take(MOST_BYTES))
            .finish()
    }
}

thread_local! {
    // Whether this thread runs user code for the text of a value.
    static IS_SHOWING: Cell<bool> = const { Cell::new(false) };
}

/// Whether the current thread runs user code for the text of a value that the test doesn't ask for.
/// A panic in it is no panic of the test.
pub(crate) fn is_showing() -> bool {
    IS_SHOWING.try_with(Cell::get).unwrap_or(false)
}

#[cfg(feature = "debug_values")]
pub(super) use guarded::{Guarded, guarded, guarded_start};

#[cfg(feature = "debug_values")]
mod guarded {
    use super::{IS_SHOWING, Start};
    use crate::channels::cut::at_most;
    use std::fmt::{self, Write};
    use std::panic::{self, AssertUnwindSafe};

    /// Formats a value by user code, up to the limit. What is in it may go through a million items
    /// also where it is refused, so it is left as by a panic, which no hook sees.
    pub(in crate::channels::erased) fn guarded_start(value: fmt::Arguments<'_>) -> Option<String> {
        struct Leaves<'a>(&'a mut Start);

        impl Write for Leaves<'_> {
            fn write_str(&mut self, text: &str) -> fmt::Result {
                let written = self.0.write_str(text);
                if self.0.is_full && cfg!(panic = "unwind") {
                    panic::resume_unwind(Box::new(()));
                }
                written
            }
        }

        let mut start = Start::default();
        let ended = guarded(|| {
            let _ = Leaves(&mut start).write_fmt(value);
        });
        match ended {
            Guarded::Within => None,
            Guarded::Panicked(said) if !start.is_full => Some(said),
            _ => Some(start.ended()),
        }
    }

    /// How many bytes of what a panic says are kept.
    const SAID_BYTES: usize = 200;

    /// What user code that the test doesn't ask for has returned.
    pub(in crate::channels::erased) enum Guarded<R> {
        Returned(R),
        /// It panicked, and this says so.
        Panicked(String),
        /// It is called by itself, as where the text of a value sends a value.
        Within,
    }

    /// Runs user code that the test doesn't ask for.
    pub(in crate::channels::erased) fn guarded<R>(run: impl FnOnce() -> R) -> Guarded<R> {
        if IS_SHOWING.try_with(|it| it.replace(true)) != Ok(false) {
            return Guarded::Within;
        }
        let returned = panic::catch_unwind(AssertUnwindSafe(run));
        let guarded = match returned {
            Ok(returned) => Guarded::Returned(returned),
            Err(panicked) => {
                let text = panicked.downcast_ref::<&str>().copied();
                let text = text.or_else(|| panicked.downcast_ref::<String>().map(String::as_str));
                let said = at_most(text.unwrap_or("no text"), SAID_BYTES);
                // Its drop may panic too.
                std::mem::forget(panicked);
                Guarded::Panicked(format!("its `Debug` panicked: {said}"))
            }
        };
        let _ = IS_SHOWING.try_with(|it| it.set(false));
        guarded
    }
}

#[cfg(test)]
mod tests {
    use super::*;

    struct Long;

    impl fmt::Debug for Long {
        fn fmt(&self, f: &mut fmt::Formatter<'_>) -> fmt::Result {
            // It goes on where it is refused.
            for _ in 0..200 {
                let _ = f.write_str("é");
            }
            Ok(())
        }
    }

    #[test]
    fn what_is_long_is_cut_between_characters() {
        let wanted = format!("x{}… (more than 256 bytes)", "é".repeat(127));
        assert_eq!(start(format_args!("x{Long:?}")), wanted);
        let whole = "x".repeat(256);
        assert_eq!(start(format_args!("{whole}")), whole);
    }
}
