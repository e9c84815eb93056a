//! The places of stacks that are kept: the first frame of the program's own sources.
//!
//! What the standard library prints of a backtrace is read, since nothing else of it is offered.
//! Each frame has a line with its function, and one with its place if the build has such lines.
//! Where it has none, the first function that is no library's is all that is known.
//!
//! What tokio drops of a task, as one that was aborted, has no caller: the frames beyond are of who
//! runs the tasks. There the function is the one whose future is dropped.

use std::backtrace::Backtrace;
use std::path::Path;
use yovanelum_record::sidecar::SourceLocation;

/// What the functions begin with that aren't the program's own.
const OTHERS: [&str; 6] = ["yovanelum", "tokio", "core", "std", "alloc", "test"];

/// What the functions of tokio begin with that run a task, or drop its future.
const RUNS_TASKS: [&str; 2] = ["tokio::runtime::task::", "<tokio::runtime::task::"];

/// A frame of a stack.
#[derive(Debug, PartialEq, Eq)]
pub(super) struct Frame {
    pub(super) function: String,
    pub(super) location: Option<SourceLocation>,
}

/// Returns the first frame that is in the sources below this folder.
pub(super) fn first_own(stack: &Backtrace, here: &Path) -> Option<Frame> {
    first_of_text(&stack.to_string(), |file| here.join(file).is_file(), here)
}

/// What functions begin with that write the error which a test returns. The first is std's alone.
/// The other, as the function below, is compiled with the test, and may be inlined there.
const WRITE_RETURNED: [&str; 2] = [
    "std::io::stdio::attempt_print_to_stderr",
    "test::assert_test_result",
];

/// What the name of the third of them ends with.
const REPORTS_RETURNED: &str = " as std::process::Termination>::report";

/// Whether this stack is of the harness, which writes the error that a test has returned.
pub(super) fn is_of_returned(stack: &Backtrace) -> bool {
    is_text_of_returned(&stack.to_string())
}

fn is_text_of_returned(text: &str) -> bool {
    let functions = text.lines().filter_map(|line| line.split_once(": "));
    let mut names = functions.map(|(_, name)| without_hash(name));
    names.any(|name| {
        let begins = WRITE_RETURNED.iter().any(|begin| name.starts_with(begin));
        begins || name.ends_with(REPORTS_RETURNED)
    })
}

/// Returns the first frame of a printed stack that is the program's own. `is_there` says whether a
/// file is below the folder.
fn first_of_text(text: &str, is_there: impl Fn(&str) -> bool, here: &Path) -> Option<Frame> {
    let mut function = "";
    let mut first = None;
    let mut dropped = None;
    for line in text.lines().map(str::trim_start) {
        if let Some((_, name)) = line.split_once(": ") {
            function = without_hash(name);
            if RUNS_TASKS.iter().any(|begin| function.starts_with(begin)) {
                break;
            }
            dropped = own_future(function).or(dropped);
            if first.is_none() && is_own(function) && has_path(function) {
                first = Some(function);
            }
        } else if let Some(place) = line.strip_prefix("at ") {
            let location = location(place, here).filter(|at| is_there(&at.file));
            if location.is_some() && is_own(function) {
                return Some(Frame {
                    function: function.to_string(),
                    location,
                });
            }
        }
    }
    Some(Frame {
        function: first.or(dropped)?.to_string(),
        location: None,
    })
}

/// Whether a function is named with its path, and not by its name alone, as those of a library that
/// are inlined.
fn has_path(function: &str) -> bool {
    let name = function.trim_start_matches(['<', '&']);
    name.split('<').next().unwrap_or_default().contains("::")
}

/// Returns the function of the program whose future is dropped in this one: the compiler calls the
/// type of a future as the function, with `{{closure}}` behind it.
fn own_future(function: &str) -> Option<&str> {
    let dropped = function.strip_prefix("core::ptr::drop_in_place<")?;
    let future = dropped.strip_suffix(">")?.strip_suffix("::{{closure}}")?;
    let is_plain = !future.contains(['<', ' ']);
    (is_plain && is_own(future)).then_some(future)
}

/// Whether a function is the program's own: neither a library's, nor a method that a library's
/// trait has for a type of a library.
fn is_own(function: &str) -> bool {
    let name = function.trim_start_matches(['<', '&']);
    let library = name.split("::").next().unwrap_or_default();
    !OTHERS.contains(&library)
}

/// Returns the name of a function without the number that the compiler adds.
pub(super) fn without_hash(function: &str) -> &str {
    match function.rsplit_once("::h") {
        Some((name, hash)) if hash.len() == 16 => name,
        _ => function,
    }
}

/// Returns a place as `./src/feed.rs:31:9`, if it is below this folder and not in a registry.
fn location(place: &str, here: &Path) -> Option<SourceLocation> {
    let (rest, column) = place.rsplit_once(':')?;
    let (file, line) = rest.rsplit_once(':')?;
    let path = Path::new(file);
    let below = match path.strip_prefix(here) {
        Ok(below) => below,
        Err(_) if path.is_relative() => path.strip_prefix(".").unwrap_or(path),
        Err(_) => return None,
    };
    let file = below.to_str()?;
    (!file.starts_with("..")).then_some(())?;
    Some(SourceLocation {
        file: file.to_string(),
        line: line.parse().ok()?,
        column: column.parse().ok()?,
    })
}

#[cfg(test)]
mod tests {
    use super::*;
    use std::cell::Cell;
    use std::fmt;
    use std::process::Termination;

    /// What it notes is whether a returned error is written.
    struct WhoWrites<'a>(&'a Cell<bool>);

    impl fmt::Debug for WhoWrites<'_> {
        fn fmt(&self, _: &mut fmt::Formatter<'_>) -> fmt::Result {
            self.0.set(is_of_returned(&Backtrace::force_capture()));
            Ok(())
        }
    }

    #[test]
    fn what_writes_a_returned_error_is_told_from_others() {
        let is_returned = Cell::new(true);
        assert_eq!(format!("{:?}", Some(WhoWrites(&is_returned))), "Some()");
        assert!(!is_returned.get());
        // So does the harness with what a test returns.
        let _ = Err::<(), _>(WhoWrites(&is_returned)).report();
        assert!(is_returned.get());
    }

    #[test]
    fn functions_that_write_a_returned_error_are_known_by_their_names() {
        let report = "as std::process::Termination>::report::h0123456789abcdef";
        for (frame, is_it) in [
            (&*format!("<core::result::Result<(), E> {report}"), true),
            ("std::io::stdio::attempt_print_to_stderr", true),
            ("test::assert_test_result", true),
            ("test::assert_test_result::<Result<(), shop::Lost>>", true),
            ("shop::test::assert_test_result", false),
            ("shop::report", false),
        ] {
            let text = format!("   7: {frame}\n");
            assert_eq!(is_text_of_returned(&text), is_it, "{frame}");
        }
    }

    const STACK: &str = "\
   0: yovanelum::channels::channel::locked::LockedChannel::drop_handle
             at /home/me/yovanelum/rust/src/channels/channel/locked.rs:300:9
   1: core::ptr::drop_in_place<tokio::sync::broadcast::Sender<u32>>
             at /rustc/59807616/library/core/src/ptr/mod.rs:805:1
   2: shop::feed::publish::h0123456789abcdef
             at ./src/feed.rs:31:1
   3: shop::main
             at /home/me/shop/src/main.rs:4:5
";

    fn first(text: &str, files: &[&str]) -> Option<Frame> {
        first_of_text(
            text,
            |file| files.contains(&file),
            Path::new("/home/me/shop"),
        )
    }

    #[test]
    fn the_first_frame_of_the_program_is_found() {
        let frame = first(STACK, &["src/feed.rs"]).unwrap();
        assert_eq!(frame.function, "shop::feed::publish");
        let SourceLocation { file, line, column } = frame.location.unwrap();
        assert_eq!((file.as_str(), line, column), ("src/feed.rs", 31, 1));
    }

    #[test]
    fn without_lines_of_places_the_function_is_known() {
        let bare = STACK.lines().filter(|line| !line.contains(" at "));
        let bare: Vec<_> = bare.collect();
        let wanted = Frame {
            function: "shop::feed::publish".to_string(),
            location: None,
        };
        assert_eq!(first(&bare.join("\n"), &[]), Some(wanted));
        // A file that isn't there is another's, as those of the C library.
        let frame = first(STACK, &["src/main.rs"]).unwrap();
        assert_eq!(frame.function, "shop::main");
    }

    #[test]
    fn what_a_runtime_drops_of_a_task_has_no_place() {
        let aborted = "\
   0: yovanelum::channels::channel::locked::LockedChannel::drop_handle
             at /home/me/yovanelum/rust/src/channels/channel/locked.rs:300:9
   1: core::ptr::drop_in_place<tokio::sync::broadcast::Sender<u32>>
             at /rustc/59807616/library/core/src/ptr/mod.rs:805:1
   2: core::ptr::drop_in_place<shop::feed::publish::{{closure}}>
             at /rustc/59807616/library/core/src/ptr/mod.rs:805:1
   3: core::ptr::drop_in_place<alloc::boxed::Box<shop::feed::publish::{{closure}}>>
             at /rustc/59807616/library/core/src/ptr/mod.rs:805:1
   3: set<&mut core::option::Option<shop::feed::publish::{async_block_env#0}>>
             at /rustc/59807616/library/core/src/pin.rs:1600:9
   4: tokio::runtime::task::harness::cancel_task
             at /home/me/.cargo/registry/src/tokio-1.53.2/src/runtime/task/harness.rs:446:15
   5: shop::main
             at /home/me/shop/src/main.rs:4:5
";
        let wanted = Frame {
            function: "shop::feed::publish".to_string(),
            location: None,
        };
        assert_eq!(first(aborted, &["src/main.rs"]), Some(wanted));
        // A drop in the task's own code comes before.
        let within = aborted.replace(
            "4: tokio::runtime::task",
            "4: shop::feed::publish::{{closure}}\n             at ./src/main.rs:9:1\n   5: tokio::runtime::task",
        );
        let frame = first(&within, &["src/main.rs"]).unwrap();
        assert_eq!(frame.location.unwrap().line, 9);
    }

    #[test]
    fn the_standard_library_prints_it_so() {
        let stack = Backtrace::force_capture().to_string();
        // This crate's own functions are left out otherwise.
        let stack = stack.replace("yovanelum::", "shop::");
        if cfg!(all(target_os = "linux", not(miri))) {
            let function = first(&stack, &[]).unwrap().function;
            assert!(function.contains("it_so"), "{function}");
        }
    }
}
