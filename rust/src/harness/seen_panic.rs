//! A panic of a test as the hook sees it, with what is asked of it once the test has ended: which
//! calls waited then, and whether a drop has caught it.

use crate::channels::recorder::{NotedPanic, Shared, WaitThen};
use std::backtrace::Backtrace;
use std::fmt;
use std::panic::PanicHookInfo;
use std::sync::Arc;

/// A panic with what was there when it began.
#[derive(Clone)]
pub(super) struct SeenPanic {
    pub(super) panic: NotedPanic,
    /// The calls that waited.
    pub(super) waits: Vec<WaitThen>,
    // Of a panic that isn't its thread's first.
    stack: Option<Arc<Backtrace>>,
}

impl SeenPanic {
    /// Sees a panic of this thread, which is its first one or isn't. A panic that another one's
    /// unwinding has caught is never the first, so the stack of that isn't needed.
    pub(super) fn of(info: &PanicHookInfo<'_>, recorder: &Shared, is_first: bool) -> SeenPanic {
        SeenPanic {
            panic: NotedPanic::of(info, recorder),
            waits: recorder.waits_then(),
            stack: (!is_first).then(|| Arc::new(Backtrace::force_capture())),
        }
    }

    /// Whether it is a panic of the thread that calls.
    pub(super) fn is_of_this_thread(&self) -> bool {
        self.panic.is_of_this_thread()
    }

    /// Whether it was caught within a drop, so that it can't be what unwinds a test. That reads the
    /// symbols of the program.
    pub(super) fn is_caught_in_drop(&self) -> bool {
        let stack = self.stack.as_ref();
        stack.is_some_and(|stack| catches_in_drop(&stack.to_string()))
    }
}

impl fmt::Debug for SeenPanic {
    fn fmt(&self, f: &mut fmt::Formatter<'_>) -> fmt::Result {
        self.panic.fmt(f)
    }
}

/// Whether the innermost function of a printed stack that catches panics was called in a drop.
fn catches_in_drop(stack: &str) -> bool {
    let mut functions = stack.lines().filter_map(|line| line.split_once(": "));
    let catches = |function: &str| {
        function.contains("catch_unwind") || function.starts_with("std::panicking::try")
    };
    let is_caught = functions.any(|(_, function)| catches(function));
    let drops = |function: &str| {
        function.contains("core::ptr::drop_in_place") || function.contains("core::ops::drop::Drop>")
    };
    is_caught && functions.any(|(_, function)| drops(function))
}

#[cfg(test)]
mod tests {
    use super::*;
    use std::panic::catch_unwind;

    /// Returns the stack of a call that is caught.
    fn caught_stack() -> String {
        catch_unwind(|| Backtrace::force_capture().to_string()).unwrap()
    }

    struct Catches<'a>(&'a mut String);

    impl Drop for Catches<'_> {
        fn drop(&mut self) {
            *self.0 = caught_stack();
        }
    }

    #[test]
    #[cfg_attr(any(not(target_os = "linux"), miri), ignore = "it prints other names")]
    fn what_a_drop_catches_is_told_from_other_panics() {
        let mut in_drop = String::new();
        drop(Catches(&mut in_drop));
        assert!(catches_in_drop(&in_drop), "{in_drop}");
        let outside = caught_stack();
        assert!(!catches_in_drop(&outside), "{outside}");
    }

    #[test]
    fn a_drop_within_what_catches_is_none_around_it() {
        let within = "   5: core::ptr::drop_in_place<shop::Till>\n   6: std::panicking::catch_unwind\n   7: shop::main\n";
        assert!(!catches_in_drop(within));
        let around = within.replace("shop::main", "<shop::Till as core::ops::drop::Drop>::drop");
        assert!(catches_in_drop(&around));
    }
}
