//! The paths of functions, read in their sources. A build with `debug = "line-tables-only"` has the
//! lines of a stack, and of many functions a name without its path, such as `{async_fn#0}`.

use std::fs;
use std::path::Path;
use yovanelum_record::by_text::TextMap;
use yovanelum_record::listed::IntoList;

/// What may stand before the keyword of a function, beside its visibility and its ABI.
const QUALIFIERS: [&str; 6] = ["pub", "default", "const", "async", "unsafe", "extern"];

/// How a line begins that goes on with what a line above it with the same indentation begins.
const GOES_ON: [&str; 5] = [")", "]", "}", ">", "{"];

/// The sources that were read for a report.
#[derive(Default)]
pub(super) struct ReadSources {
    // By the paths as debugging has them, which tells all apart.
    texts: TextMap<Option<String>>,
    // Those of lines that were asked for. Most stacks have the same outer functions.
    functions: TextMap<Option<String>>,
}

impl ReadSources {
    /// Whether this source can be read.
    pub(super) fn can_read(&mut self, file: &Path) -> bool {
        let read = || fs::read_to_string(file).ok();
        let text = self.texts.get_or_insert_with(&format!("{file:?}"), read);
        text.is_some()
    }

    /// Returns the path of the function that has this line of a source which can be read, as the
    /// compiler writes it. There is none within a macro, and where the source isn't formatted as
    /// rustfmt does.
    pub(super) fn function_at(&mut self, file: &Path, line: u32) -> Option<String> {
        let name = format!("{file:?}");
        let text = self.texts.get(&name)?.as_deref()?;
        let find = || path_at(text, file, line);
        let known = self
            .functions
            .get_or_insert_with(&format!("{name}:{line}"), find);
        known.clone()
    }
}

fn path_at(text: &str, file: &Path, line: u32) -> Option<String> {
    let (of_type, name) = function_in(text, line)?;
    let module = module_of(&file.to_string_lossy())?;
    Some(match of_type {
        None => format!("{module}::{name}"),
        Some(Owner(of, None)) => format!("{module}::{of}::{name}"),
        Some(Owner(of, Some(of_trait))) => format!("<{module}::{of} as {of_trait}>::{name}"),
    })
}

/// The type or trait that has a function, and the trait that it implements by it.
#[derive(Debug, PartialEq, Eq)]
struct Owner<'a>(&'a str, Option<&'a str>);

/// Returns the path of the module that a source of a package is, with the name of the package.
fn module_of(file: &str) -> Option<String> {
    let (package, module) = file.rsplit_once("/src/")?;
    let package = package.rsplit('/').next()?;
    let is_digit = |c: char| c.is_ascii_digit();
    let mut dashes = package.match_indices('-');
    let version = dashes.find(|(at, _)| package[at + 1..].starts_with(is_digit));
    let package = version.map_or(package, |(at, _)| &package[..at]);
    let module = module.strip_suffix(".rs")?;
    let module = module.strip_suffix("/mod").unwrap_or(module);
    let path = match module {
        "lib" | "main" => package.to_string(),
        _ => format!("{package}/{module}"),
    };
    Some(path.replace('-', "_").replace('/', "::"))
}

/// Returns the function that has a line, and the type or trait that has the function.
fn function_in(text: &str, line: u32) -> Option<(Option<Owner<'_>>, &str)> {
    let lines: Vec<_> = text.lines().take(line as usize).listed();
    let mut around = Around::of(&lines)?;
    let own = lines.last().and_then(|line| named_after(line, "fn"));
    let name = own.or_else(|| around.find_map(|line| named_after(line, "fn")))?;
    let owner = around.find_map(|line| {
        let of_trait = named_after(line, "trait").map(|name| Owner(name, None));
        of_trait.or_else(|| implemented(line))
    });
    Some((owner, name))
}

/// The lines that begin what has a line, the innermost first, as indentation tells them.
struct Around<'l, 'a> {
    above: &'l [&'a str],
    // What begins around is indented by less.
    below: usize,
}

impl<'l, 'a> Around<'l, 'a> {
    /// Those of the last of these lines.
    fn of(lines: &'l [&'a str]) -> Option<Around<'l, 'a>> {
        let (last, above) = lines.split_last()?;
        let mut around = Around { above, below: 0 };
        around.pass(last);
        Some(around)
    }

    fn pass(&mut self, line: &str) {
        let begin = line.trim_start();
        let goes_on = begin.starts_with("where") || GOES_ON.iter().any(|it| begin.starts_with(it));
        self.below = line.len() - begin.len() + usize::from(goes_on);
    }
}

impl<'a> Iterator for Around<'_, 'a> {
    type Item = &'a str;

    fn next(&mut self) -> Option<&'a str> {
        while let Some((last, above)) = self.above.split_last() {
            self.above = above;
            let begin = last.trim_start();
            let is_code = !begin.is_empty() && !begin.starts_with("//") && !begin.starts_with("#[");
            if is_code && last.len() - begin.len() < self.below {
                self.pass(last);
                return Some(begin);
            }
        }
        None
    }
}

/// Returns the name after a keyword that begins a line, but for qualifiers.
fn named_after<'a>(line: &'a str, keyword: &str) -> Option<&'a str> {
    let mut rest = line.trim_start();
    loop {
        let (word, after) = rest.split_once(' ')?;
        if word == keyword {
            let end = after.find(|c: char| !c.is_alphanumeric() && c != '_');
            return Some(&after[..end.unwrap_or(after.len())]).filter(|name| !name.is_empty());
        }
        let of_pub = word.starts_with("pub(") || word.ends_with(')') || word.starts_with('"');
        if !of_pub && !QUALIFIERS.contains(&word) {
            return None;
        }
        rest = after.trim_start();
    }
}

/// Returns what a line `impl .. {` is for.
fn implemented(line: &str) -> Option<Owner<'_>> {
    let rest = line.strip_prefix("unsafe ").unwrap_or(line);
    let rest = rest.strip_prefix("impl")?;
    let rest = match rest.strip_prefix('<') {
        Some(parameters) => after_closing(parameters)?,
        None => rest.strip_prefix(' ')?,
    };
    let (of_trait, of) = match rest.split_once(" for ") {
        Some((of_trait, of)) => (Some(last_of_path(of_trait)?), of),
        None => (None, rest),
    };
    Some(Owner(last_of_path(of)?, of_trait))
}

/// Returns what comes after the parameters that an angle bracket has begun.
fn after_closing(text: &str) -> Option<&str> {
    let mut depth = 1;
    let mut before = ' ';
    for (at, c) in text.char_indices() {
        match c {
            '<' => depth += 1,
            '>' if before != '-' => depth -= 1,
            _ => {}
        }
        if depth == 0 {
            return Some(&text[at + 1..]);
        }
        before = c;
    }
    None
}

/// Returns the last name of a path, without its arguments.
fn last_of_path(text: &str) -> Option<&str> {
    let text = text.trim_start_matches([' ', '&']);
    let text = text.strip_prefix("mut ").unwrap_or(text);
    let end = text.find(|c: char| !c.is_alphanumeric() && c != '_' && c != ':');
    let path = text[..end.unwrap_or(text.len())].trim_end_matches(':');
    let name = path.rsplit("::").next();
    name.filter(|name| !name.is_empty())
}

#[cfg(test)]
mod tests {
    use super::*;

    const SOURCE: &str = "\
impl<T: ?Sized> Mutex<T> {
    /// Locks it.
    pub async fn lock(&self) -> MutexGuard<'_, T> {
        let acquire_fut = async {
            self.acquire().await;

            MutexGuard {
                lock: self,
            }
        };

        acquire_fut.await
    }

    pub(crate) async fn lock_by<F>(
        &self,
        by: F,
    ) -> MutexGuard<'_, T>
    where
        F: Fn(&T),
    {
        self.lock()
            .await
    }
}

impl<F: Fn() -> u32, T> Future for sleep::Timeout<'_, F, T>
where
    T: Future,
{
    type Output = ();

    #[inline]
    fn poll(self: Pin<&mut Self>, cx: &mut Context<'_>) -> Poll<()> {
        if self.is_over {
            Poll::Pending
        } else {
            // It goes on.
            self.inner.poll(cx)
        }
    }
}

cfg_rt! {
    impl JoinHandle {
        pub unsafe extern \"C\" fn shut(&self) { self.down() }
    }
}

pub trait StreamExt: Stream {
    fn next(&mut self) -> Next<'_, Self> {
        Next::new(self)
    }
}

pub async fn yield_now() {
    wait().await
}
";

    #[test]
    fn the_function_of_a_line_and_its_type_are_found() {
        let line_of = |part: &str| {
            let before = SOURCE.find(part).unwrap();
            SOURCE[..before].matches('\n').count() as u32 + 1
        };
        let owned = |of, of_trait| Some(Owner(of, of_trait));
        for (part, of, name) in [
            ("self.acquire()", owned("Mutex", None), "lock"),
            ("acquire_fut.await", owned("Mutex", None), "lock"),
            ("            .await", owned("Mutex", None), "lock_by"),
            ("Poll::Pending", owned("Timeout", Some("Future")), "poll"),
            ("self.inner", owned("Timeout", Some("Future")), "poll"),
            ("self.down()", owned("JoinHandle", None), "shut"),
            ("Next::new", owned("StreamExt", None), "next"),
            ("wait().await", None, "yield_now"),
        ] {
            let found = function_in(SOURCE, line_of(part));
            assert_eq!(found, Some((of, name)), "{part}");
        }
        assert_eq!(function_in(SOURCE, line_of("type Output")), None);
        assert_eq!(function_in("", 4), None);
    }

    #[test]
    fn a_source_of_a_package_is_a_module() {
        for (file, module) in [
            ("/r/tokio-1.24.2/src/sync/mutex.rs", "tokio::sync::mutex"),
            ("/g/tokio/src/runtime/time/mod.rs", "tokio::runtime::time"),
            ("/r/futures-util-0.3.21/src/lib.rs", "futures_util"),
        ] {
            assert_eq!(module_of(file).as_deref(), Some(module));
        }
        assert_eq!(module_of("tests/late.rs"), None);
    }
}
