//! The frames of a stack that was kept where a waker was cloned, and what is called there.
//!
//! What the standard library prints is read, since nothing else of a stack is offered.

use super::functions::ReadSources;
use crate::harness::stacks::without_hash;
use std::backtrace::Backtrace;
use std::path::Path;
use yovanelum_record::listed::IntoList;

/// The functions of libraries that poll another future, and aren't what a task waits for.
const PASS_ON: [&str; 12] = [
    "PollFn",
    "Pin",
    "Box",
    "AssertUnwindSafe",
    "MaybeDone",
    "Map",
    "Fuse",
    "Waker",
    "Instrumented",
    "Named",
    "Option",
    "Context",
];

/// The libraries of these functions are no program's own.
const LIBRARIES: [&str; 16] = [
    "tokio",
    "tokio_util",
    "tokio_stream",
    "core",
    "std",
    "alloc",
    "yovanelum",
    "futures",
    "futures_util",
    "futures_core",
    "futures_executor",
    "hyper",
    "mio",
    "test",
    "__rustc",
    "rustc",
];

/// Types whose names say little without their module.
const OF_MODULES: [&str; 4] = ["Receiver", "Sender", "Acquire", "Recv"];

/// What the function is called that polls a task by its own waker.
const POLL: &str = "whereabouts::waker::poll";

/// Its source and its name, where it has no path.
const BARE_POLL: (&str, &str) = ("whereabouts/waker.rs", "poll");

/// A stack whose functions are named.
pub(super) struct PrintedStack {
    pub(super) frames: Vec<StackFrame>,
}

/// A frame of a stack, with its place if the build has such lines.
#[derive(Debug, Default)]
pub(super) struct StackFrame {
    pub(super) function: String,
    pub(super) place: Option<(String, u32, u32)>,
}

impl PrintedStack {
    /// Names the functions of a stack. Those without a path are looked up in their sources, which
    /// are relative to the folder `here`.
    pub(super) fn of(stack: &Backtrace, sources: &mut ReadSources, here: &Path) -> PrintedStack {
        let mut stack = PrintedStack::of_text(&stack.to_string());
        for frame in &mut stack.frames {
            frame.complete(sources, here);
        }
        stack
    }

    fn of_text(text: &str) -> PrintedStack {
        let mut frames: Vec<StackFrame> = vec![];
        for line in text.lines().map(str::trim_start) {
            if let Some(place) = line.strip_prefix("at ") {
                if let Some(frame) = frames.last_mut() {
                    frame.place = place_of(place);
                }
            } else if let Some((_, function)) = line.split_once(": ") {
                frames.push(StackFrame {
                    function: without_hash(function).to_string(),
                    place: None,
                });
            }
        }
        PrintedStack { frames }
    }

    /// Returns the frames up to the poll in which it was kept.
    pub(super) fn of_poll(&self) -> &[StackFrame] {
        let mut frames = self.frames.iter();
        let end = frames.position(StackFrame::polls);
        &self.frames[..end.unwrap_or(self.frames.len())]
    }
}

fn place_of(place: &str) -> Option<(String, u32, u32)> {
    let (rest, column) = place.rsplit_once(':')?;
    let (file, line) = rest.rsplit_once(':')?;
    let file = file.strip_prefix("./").unwrap_or(file);
    Some((file.to_string(), line.parse().ok()?, column.parse().ok()?))
}

impl StackFrame {
    /// The crate of its function, or of the type whose function it is.
    pub(super) fn library(&self) -> &str {
        let name = self.function.trim_start_matches(['<', '&']);
        let end = name.find(|c: char| !c.is_alphanumeric() && c != '_');
        &name[..end.unwrap_or(name.len())]
    }

    /// Whether the name of its function is one of the program, as far as names say that.
    pub(super) fn is_named_by_program(&self) -> bool {
        let library = self.library();
        self.function.contains("::") && !library.is_empty() && !LIBRARIES.contains(&library)
    }

    /// Whether its function polls a task by its own waker.
    fn polls(&self) -> bool {
        let (source, name) = BARE_POLL;
        let is_there = |(file, ..): &(String, u32, u32)| file.ends_with(source);
        let is_bare = self.bare() == Some(name) && self.place.as_ref().is_some_and(is_there);
        is_bare || self.function.contains(POLL)
    }

    /// Returns the name of its function without arguments, if it has no path.
    fn bare(&self) -> Option<&str> {
        // The name of a function of a trait begins with the bracket.
        let name = self.function.split('<').next()?;
        let has_path = name.is_empty() || name.contains("::");
        (!has_path || name.starts_with('{')).then_some(name)
    }

    /// Looks up the path of its function in the source, if it has none.
    fn complete(&mut self, sources: &mut ReadSources, here: &Path) {
        let Some((file, line, _)) = self.place.as_ref().filter(|_| self.bare().is_some()) else {
            return;
        };
        let file = here.join(file);
        if sources.can_read(&file) {
            // A macro has its lines there, and no function.
            let path = sources.function_at(&file, *line);
            self.function = path.unwrap_or_default();
        }
    }

    /// Returns what is called, as `Mutex::lock`, or where its function has no path, the module of a
    /// library, as `sync::mutex`.
    pub(super) fn called(&self) -> String {
        match &self.place {
            Some((file, ..)) if self.bare().is_some() => module_of(file),
            _ => self.short(),
        }
    }

    /// Returns what is called, as `Mutex::lock`. That of something which only polls another future
    /// is empty.
    pub(super) fn short(&self) -> String {
        let (name, polls) = match self.function.strip_prefix('<') {
            Some(inner) => {
                let (of, of_trait) = inner.split_once(" as ").unwrap_or((inner, ""));
                (of, of_trait.contains("::poll"))
            }
            None => (self.function.as_str(), false),
        };
        let plain = without_arguments(name);
        let parts = plain
            .split("::")
            .filter(|part| !part.is_empty() && !part.starts_with('{'));
        let parts: Vec<_> = parts.listed();
        let [.., last] = parts[..] else {
            return String::new();
        };
        let is_passed_on = parts.iter().any(|part| PASS_ON.contains(part));
        let is_of_std = ["core", "std", "alloc", "yovanelum"].contains(&parts[0]);
        let is_parameter = parts.len() == 1 || last.starts_with("poll_");
        if is_passed_on || is_parameter || is_of_std && last != "pending" && last != "Pending" {
            return String::new();
        }
        let before = parts.len().checked_sub(2).map(|index| parts[index]);
        let is_type = |part: &&str| part.starts_with(|c: char| c.is_uppercase());
        match before {
            Some(of) if !polls && is_type(&of) => format!("{of}::{last}"),
            Some(module) if OF_MODULES.contains(&last) => format!("{module}::{last}"),
            _ => last.to_string(),
        }
    }
}

/// Returns the module of a source of a library that cargo has compiled. The standard library has
/// none.
fn module_of(file: &str) -> String {
    if file.starts_with("/rustc/") || file.contains("/rustlib/") {
        return String::new();
    }
    let module = file.rsplit_once("/src/").map_or("", |(_, module)| module);
    let module = module.strip_suffix(".rs").unwrap_or(module);
    let module = module.strip_suffix("/mod").unwrap_or(module);
    module.replace('/', "::")
}

/// Returns a name without the arguments of its types.
fn without_arguments(name: &str) -> String {
    let mut plain = String::new();
    let mut depth = 0_u32;
    for c in name.chars() {
        match c {
            '<' => depth += 1,
            '>' => depth = depth.saturating_sub(1),
            c if depth == 0 => plain.push(c),
            _ => {}
        }
    }
    plain
}

#[cfg(test)]
mod tests {
    use super::*;

    #[test]
    fn what_is_called_has_a_short_name() {
        for (function, short) in [
            (
                "tokio::sync::mutex::Mutex<T>::lock::{{closure}}",
                "Mutex::lock",
            ),
            (
                "tokio::sync::rwlock::RwLock<T>::write::{{closure}}::{{closure}}",
                "RwLock::write",
            ),
            (
                "<tokio::time::sleep::Sleep as core::future::future::Future>::poll",
                "Sleep",
            ),
            (
                "<tokio::sync::oneshot::Receiver<T> as core::future::future::Future>::poll",
                "oneshot::Receiver",
            ),
            (
                "tokio::task::yield_now::yield_now::{{closure}}",
                "yield_now",
            ),
            (
                "<core::future::poll_fn::PollFn<F> as core::future::future::Future>::poll",
                "",
            ),
            ("<&mut F as core::future::future::Future>::poll", ""),
            ("core::task::wake::Waker::clone", ""),
            (
                "<core::future::pending::Pending<T> as core::future::future::Future>::poll",
                "Pending",
            ),
        ] {
            let frame = StackFrame {
                function: function.to_string(),
                place: None,
            };
            assert_eq!(frame.short(), short, "{function}");
        }
    }

    #[test]
    fn frames_have_their_places_and_end_at_the_poll() {
        let stack = PrintedStack::of_text(
            "   3: tokio::sync::mutex::Mutex<T>::lock\n             at /r/tokio/src/sync/mutex.rs:9:5\n   4: shop::db::store::h0123456789abcdef\n             at ./src/db.rs:40:17\n   5: yovanelum::channels::whereabouts::waker::poll\n   6: shop::main\n",
        );
        let frames = stack.of_poll();
        assert_eq!(frames.len(), 2);
        let place = Some(("src/db.rs".to_string(), 40, 17));
        assert_eq!(
            (frames[1].function.as_str(), &frames[1].place),
            ("shop::db::store", &place)
        );
        assert!(frames[1].is_named_by_program() && !frames[0].is_named_by_program());
        assert_eq!(
            (frames[0].library(), frames[1].library()),
            ("tokio", "shop")
        );
    }

    #[test]
    fn without_paths_of_functions_the_module_is_known() {
        let called = |function: &str, file: &str| {
            let frame = StackFrame {
                function: function.to_string(),
                place: Some((file.to_string(), 9, 5)),
            };
            frame.called()
        };
        let file = "/r/tokio-1.24.2/src/sync/mutex.rs";
        assert_eq!(
            called("{async_fn#0}<alloc::vec::Vec<u32>>", file),
            "sync::mutex"
        );
        assert_eq!(called("lock<u32>", file), "sync::mutex");
        assert_eq!(
            called("poll<F>", "/rustc/0/library/core/src/future/future.rs"),
            ""
        );
        assert_eq!(
            called("tokio::sync::mutex::Mutex<T>::lock", file),
            "Mutex::lock"
        );
        assert_eq!(
            called("<tokio::time::Sleep as core::future::Future>::poll", file),
            "Sleep"
        );
    }
}
