//! Commands for GitHub's workflows, which show a fact beside the line of its source.

use crate::account::{Fact, Level};
use std::env;
use std::fmt::Write;
use std::path::{MAIN_SEPARATOR, Path};

/// Where a workflow runs.
pub(super) struct Workflow {
    // The folder of the repository.
    repository: Option<String>,
}

impl Workflow {
    /// Returns the workflow that runs this program, if one does.
    pub(super) fn current() -> Option<Workflow> {
        let is_one = env::var_os("GITHUB_ACTIONS").is_some_and(|value| value == "true");
        is_one.then(|| Workflow {
            repository: env::var("GITHUB_WORKSPACE").ok(),
        })
    }

    /// Returns the command that shows a fact beside its first place in the user's sources, as a
    /// line. Paths are relative to `root`, if that is known.
    pub(super) fn command(&self, level: Level, fact: &Fact, root: Option<&str>) -> String {
        let word = match level {
            Level::Note => "notice",
            level => level.word(),
        };
        let mut command = format!("::{word} ");
        if let Some(location) = fact.own_location() {
            let file = property(&self.in_repository(&location.file, root));
            let (line, column) = (location.line, location.column);
            let _ = write!(command, "file={file},line={line},col={column},");
        }
        let text = fact.text();
        let message = data(&text.join("\n"));
        let _ = write!(command, "title={}::{message}", property(&fact.head));
        command
    }

    /// Returns the path of a source in the repository, if it is there.
    fn in_repository(&self, file: &str, root: Option<&str>) -> String {
        let whole = Path::new(root.unwrap_or_default()).join(file);
        let inside = self.repository.as_ref();
        let inside = inside.and_then(|folder| whole.strip_prefix(folder).ok());
        let inside = inside.filter(|path| !path.as_os_str().is_empty());
        let inside = inside.map(|path| path.to_string_lossy().into_owned());
        // GitHub's paths have slashes, also where Windows has backslashes.
        let slashed = inside.map(|path| path.replace(MAIN_SEPARATOR, "/"));
        slashed.unwrap_or_else(|| file.to_string())
    }
}

/// Returns a text as the message of a command.
fn data(text: &str) -> String {
    let text = text.replace('%', "%25");
    text.replace('\r', "%0D").replace('\n', "%0A")
}

/// Returns a text as a property of a command.
fn property(text: &str) -> String {
    data(text).replace(':', "%3A").replace(',', "%2C")
}

#[cfg(test)]
mod tests {
    use super::*;

    #[test]
    fn what_ends_a_message_or_a_property_is_escaped() {
        assert_eq!(data("100%, a: b\r\nc"), "100%25, a: b%0D%0Ac");
        assert_eq!(property("100%, a: b\r\nc"), "100%25%2C a%3A b%0D%0Ac");
    }

    #[test]
    fn a_path_is_one_of_the_repository() {
        let workflow = |repository: Option<&str>| Workflow {
            repository: repository.map(str::to_string),
        };
        let shop = workflow(Some("/home/runner/shop"));
        for (file, root, wanted) in [
            ("src/a.rs", Some("/home/runner/shop/bus"), "bus/src/a.rs"),
            ("src/a.rs", Some("/home/runner/shop"), "src/a.rs"),
            ("src/a.rs", Some("/elsewhere"), "src/a.rs"),
            ("src/a.rs", None, "src/a.rs"),
            ("/home/runner/shop/src/a.rs", None, "src/a.rs"),
            (
                "/registry/a.rs",
                Some("/home/runner/shop"),
                "/registry/a.rs",
            ),
        ] {
            assert_eq!(shop.in_repository(file, root), wanted, "{file} {root:?}");
        }
        assert_eq!(workflow(None).in_repository("a.rs", Some("/b")), "a.rs");
    }
}
