//! Calls of tokio's own channels and locks as steps of a run that is explored: in the copy of
//! tokio's sources, the body of each such method begins with a call of a function that the package
//! in tokio's place sets. No line moves, and no type changes.

use std::path::Path;
use std::{fs, io};

/// The sources whose methods are steps, below `src/sync`. A version may lack some.
const SOURCES: [&str; 14] = [
    "mpsc/bounded.rs",
    "mpsc/chan.rs",
    "mpsc/unbounded.rs",
    "mutex.rs",
    "notify.rs",
    "oneshot.rs",
    "rwlock.rs",
    "rwlock/owned_read_guard.rs",
    "rwlock/owned_write_guard.rs",
    "rwlock/owned_write_guard_mapped.rs",
    "rwlock/read_guard.rs",
    "rwlock/write_guard.rs",
    "rwlock/write_guard_mapped.rs",
    "semaphore.rs",
];

/// Methods that change nothing which others see, or that call another one of these.
const NO_STEPS: [&str; 6] = [
    "get_mut",
    "into_inner",
    "max_capacity",
    "max_readers",
    "merge",
    "same_channel",
];

/// How a method begins that blocks, by calling the one that waits.
const BLOCKING: &str = "blocking_";

/// Types that are parts of others, whose drop is no call.
const PARTS: [&str; 6] = ["Acquire", "Chan", "Inner", "Notified", "Set", "Waiter"];

/// What is added to the library.
const MODULE: &str = "
#[doc(hidden)]
#[allow(missing_docs, unreachable_pub, dead_code)]
pub mod yovanelum_points {
    static PASS: std::sync::OnceLock<fn(&'static str)> = std::sync::OnceLock::new();

    pub fn set(pass: fn(&'static str)) {
        let _ = PASS.set(pass);
    }

    pub(crate) fn pass(called: &'static str) {
        if let Some(pass) = PASS.get() {
            pass(called);
        }
    }
}
";

/// The variable by which they are asked for.
pub const POINTS: &str = "YOVANELUM_EXPLORE_POINTS";

/// Adds the steps to the copy of tokio's sources in this folder.
///
/// # Errors
///
/// Returns an error if a file can't be read or written.
pub fn add(tokio: &Path) -> io::Result<()> {
    for source in SOURCES {
        let path = tokio.join("src/sync").join(source);
        match fs::read_to_string(&path) {
            Ok(text) => fs::write(&path, with_steps(&text))?,
            Err(error) if error.kind() == io::ErrorKind::NotFound => {}
            Err(error) => return Err(error),
        }
    }
    let library = tokio.join("src/lib.rs");
    let text = fs::read_to_string(&library)?;
    fs::write(&library, text + MODULE)
}

/// Returns a source with steps, which is one as rustfmt writes it.
fn with_steps(source: &str) -> String {
    let mut out = String::with_capacity(source.len() + source.len() / 16);
    let mut of = None;
    // The head of an `impl` or of a method, which may go on in the next line.
    let mut head = String::new();
    for line in source.split_inclusive('\n') {
        let text = line.trim_end();
        out.push_str(text);
        if text.starts_with("impl") || is_method(text) {
            head = text.trim_start().to_string();
        } else if !head.is_empty() {
            head.extend([" ", text.trim_start()]);
        }
        if head.ends_with(['{', '}', ';']) {
            let called = step_after(&head, &mut of);
            let step =
                called.map(|called| format!(" crate::yovanelum_points::pass(\"{called}\");"));
            out.extend(step);
            head.clear();
        }
        out.push_str(&line[text.len()..]);
    }
    out
}

/// Returns how the step is called that comes behind this head. `of` is the `impl` around it, and is
/// replaced by the next one.
fn step_after(head: &str, of: &mut Option<Impl>) -> Option<String> {
    if head.starts_with("impl") {
        *of = Impl::read(head);
        return None;
    }
    of.as_ref()
        .filter(|_| head.ends_with('{'))
        .and_then(|of| of.step(head))
}

/// Whether a method of an `impl` begins in this line.
fn is_method(line: &str) -> bool {
    let Some(rest) = line.strip_prefix("    ") else {
        return false;
    };
    let rest = rest.strip_prefix("pub ").unwrap_or(rest);
    let rest = rest.strip_prefix("async ").unwrap_or(rest);
    rest.starts_with("fn ")
}

/// What methods belong to.
struct Impl {
    of_type: String,
    of_trait: Option<String>,
}

impl Impl {
    /// Reads the head of an `impl`.
    fn read(head: &str) -> Option<Impl> {
        let head = head.strip_prefix("impl")?;
        let head = head.split(" where").next()?.trim_end_matches(['{', ' ']);
        let head = without_parameters(head);
        let mut names = head.split(" for ").map(name);
        let first = names.next()?;
        let (of_type, of_trait) = match names.next() {
            Some(of_type) => (of_type, Some(first)),
            None => (first, None),
        };
        let of_type = match of_type {
            "Tx" => "Sender",
            "Rx" => "Receiver",
            name => name,
        };
        Some(Impl {
            of_type: of_type.to_string(),
            of_trait: of_trait.map(str::to_string),
        })
    }

    /// Returns how the step of a method is called, if it has one.
    fn step(&self, head: &str) -> Option<String> {
        let (before, parameters) = head.split_once('(')?;
        let (kind, method) = before.split_once("fn ")?;
        let method = name(method);
        let takes = parameters.trim_start();
        let takes_self = ["self", "&self", "&mut self", "mut self"]
            .iter()
            .any(|own| takes.starts_with(own));
        let is_step = match self.of_trait.as_deref() {
            None => kind.starts_with("pub ") && !NO_STEPS.contains(&method),
            Some("Drop") => !PARTS.contains(&&*self.of_type),
            Some("Future") => self.of_type == "Receiver" || self.of_type == "Notified",
            Some(_) => false,
        };
        let is_step = is_step && takes_self && !method.starts_with(BLOCKING);
        is_step.then(|| format!("{}::{method}", self.of_type))
    }
}

/// Returns a text without the first pair of angle brackets, if it begins with them.
fn without_parameters(text: &str) -> &str {
    if !text.starts_with('<') {
        return text;
    }
    let mut depth = 0;
    let end = text.char_indices().find(|(_, c)| {
        depth += i32::from(*c == '<') - i32::from(*c == '>');
        depth == 0
    });
    end.map_or("", |(end, _)| &text[end + 1..])
}

/// Returns the last part of the path that a text begins with.
fn name(text: &str) -> &str {
    let is_of_path = |c: char| c.is_alphanumeric() || c == '_' || c == ':';
    let text = text.trim();
    let end = text.find(|c| !is_of_path(c)).unwrap_or(text.len());
    text[..end].rsplit("::").next().unwrap_or_default()
}

#[cfg(test)]
mod tests {
    use super::*;

    #[test]
    fn each_call_begins_with_a_step_and_no_line_moves() {
        let source = "impl<T: ?Sized> Mutex<T> {\n    pub fn new(t: T) -> Self\n    where\n        T: Sized,\n    {\n        Self\n    }\n\n    \
                      pub async fn lock(&self) -> MutexGuard<'_, T> {\n        x().await\n    }\n\n    \
                      pub fn blocking_lock(&self) -> MutexGuard<'_, T> {\n        block_on(self.lock())\n    }\n\n    \
                      async fn acquire(&self) {}\n\n    pub fn get_mut(&mut self) -> &mut T {\n        y()\n    }\n\n    \
                      pub async fn send_timeout(\n        &self,\n        value: T,\n    ) -> Result<(), T> {\n        z()\n    }\n}\n\n\
                      impl<T: ?Sized> Drop for MutexGuard<'_, T> {\n    fn drop(&mut self) {\n        u()\n    }\n}\n\n\
                      impl<T> Drop for Inner<T> {\n    fn drop(&mut self) {\n        u()\n    }\n}\n\n\
                      impl<T, S: Semaphore> Drop for Rx<T, S> {\n    fn drop(&mut self) {\n        u()\n    }\n}\n\n\
                      impl<T> fmt::Debug for Mutex<T>\nwhere\n    T: fmt::Debug,\n{\n    fn fmt(&self) -> R {\n        w()\n    }\n}\n";
        let made = with_steps(source);
        assert_eq!(made.lines().count(), source.lines().count());
        let added: Vec<_> = made
            .lines()
            .zip(source.lines())
            .filter_map(|(made, line)| made.strip_prefix(line))
            .filter(|added| !added.is_empty())
            .collect();
        let wanted = [
            "Mutex::lock",
            "Mutex::send_timeout",
            "MutexGuard::drop",
            "Receiver::drop",
        ]
        .map(|called| format!(" crate::yovanelum_points::pass(\"{called}\");"));
        assert_eq!(added, wanted);
    }
}
