//! Which threads run a test of this program. The harness names each by the path of the test's
//! function, and the sources say which functions are tests. So a thread that a test has named
//! itself isn't taken for another test.

use crate::harness::program::Program;
use std::fs;
use std::ops::RangeInclusive;
use std::path::{Path, PathBuf};
use std::sync::OnceLock;
use yovanelum_record::by_text::TextMap;
use yovanelum_record::listed::IntoList;

/// What the attribute of a test has in its name, such as `tokio::test` and `rstest`.
const TEST: &str = "test";

/// A function that is a test, in a source of this program.
struct TestFunction {
    name: String,
    should_panic: bool,
    is_async: bool,
    // Whether it returns more than `()`.
    returns: bool,
    source: PathBuf,
    /// The lines from its keyword to its end, where rustfmt puts that.
    lines: Option<RangeInclusive<u32>>,
    /// Whether its path is its name: it is in no module of the root file.
    is_at_root: bool,
}

/// The functions that are tests in the sources of this program.
struct TestFunctions {
    all: Vec<TestFunction>,
    /// Where those with a name are.
    by_name: TextMap<Vec<usize>>,
}

/// Whether a thread with this name runs a test whose failure is a panic or an `Err`. One that
/// should panic fails where it does not, and then there is nothing to report.
pub(super) fn may_report(thread: &str) -> bool {
    let is_word = |word: &str| {
        word.starts_with(|c: char| c.is_alphabetic() || c == '_')
            && word.chars().all(|c| c.is_alphanumeric() || c == '_')
    };
    if thread == "main" || !thread.split("::").all(is_word) {
        return false;
    }
    let Some(tests) = tests() else {
        return true;
    };
    let of_name = of_thread(tests, thread);
    of_name.iter().any(|test| !test.should_panic)
}

/// Returns the functions that may be the test with this path. A test of several cases is a module
/// that has one function for each.
fn of_thread<'a>(tests: &'a TestFunctions, path: &str) -> Vec<&'a TestFunction> {
    let mut names = path.rsplit("::").take(2);
    match names.find_map(|name| tests.by_name.get(name)) {
        Some(found) => found.iter().map(|index| &tests.all[*index]).listed(),
        None => Vec::new(),
    }
}

/// Returns the functions that may be the test with this path, if a source can be read.
fn of_path(path: &str) -> Vec<&'static TestFunction> {
    tests().map_or_else(Vec::new, |tests| of_thread(tests, path))
}

/// Whether the test with this path is a future, on which its attribute has its thread block. Then
/// what that returns is what the test does.
pub(super) fn is_async(path: &str) -> bool {
    let found = of_path(path);
    !found.is_empty() && found.iter().all(|test| test.is_async)
}

/// Whether the test with this path returns something, such as a `Result`.
pub(super) fn returns(path: &str) -> bool {
    of_path(path).iter().any(|test| test.returns)
}

/// Returns the test whose function has this place in the sources: its name, and its path if that is
/// known.
pub(super) fn test_at(file: &str, line: u32) -> Option<(&'static str, Option<&'static str>)> {
    let tests = tests()?;
    let source = Program::this().root_of(&[Path::new(file)])?.join(file);
    let has_line = |test: &&TestFunction| {
        test.source == source
            && test
                .lines
                .as_ref()
                .is_some_and(|lines| lines.contains(&line))
    };
    let mut around = tests.all.iter().filter(has_line);
    let found = around.next()?;
    // Where there are several, an end isn't where rustfmt puts it.
    if around.next().is_some() || found.should_panic {
        return None;
    }
    Some((&found.name, found.is_at_root.then_some(&*found.name)))
}

/// Returns the functions that are tests in the sources of this program. `None` where no source can
/// be read.
fn tests() -> Option<&'static TestFunctions> {
    static TESTS: OnceLock<Option<TestFunctions>> = OnceLock::new();
    let tests = TESTS.get_or_init(|| {
        let (mut all, mut is_any_read) = (vec![], false);
        for (nth, path) in Program::this().sources().iter().enumerate() {
            if let Ok(text) = fs::read_to_string(path) {
                all.append(&mut tests_in(path, &text, nth == 0));
                is_any_read = true;
            }
        }
        is_any_read.then(|| TestFunctions::of(all))
    });
    tests.as_ref()
}

impl TestFunctions {
    fn of(all: Vec<TestFunction>) -> TestFunctions {
        let mut by_name: TextMap<Vec<_>> = TextMap::new();
        for (index, test) in all.iter().enumerate() {
            by_name.get_or_default(&test.name).push(index);
        }
        TestFunctions { all, by_name }
    }
}

/// Returns the functions of a source that are tests.
fn tests_in(path: &Path, text: &str, is_root: bool) -> Vec<TestFunction> {
    let lines: Vec<_> = text.lines().listed();
    let functions = text.match_indices("fn ").filter_map(|(at, keyword)| {
        let is_end = |c: char| !(c.is_alphanumeric() || c == '_');
        let rest = &text[at + keyword.len()..];
        let name = &rest[..rest.find(is_end)?];
        let (before, is_async) = without_qualifiers(&text[..at]);
        let mut attributes = attributes_before(before).peekable();
        attributes.peek()?;
        let (mut is_test, mut should_panic) = (false, false);
        for attribute in attributes {
            let path = attribute.split(['(', '=', ' ']).next().unwrap_or_default();
            is_test |= path.contains(TEST);
            should_panic |= path == "should_panic";
        }
        let first = text[..at].matches('\n').count();
        is_test.then(|| TestFunction {
            name: name.to_string(),
            should_panic,
            is_async,
            returns: rest.split('{').next().is_some_and(|it| it.contains("->")),
            source: path.to_path_buf(),
            lines: lines_of(&lines, first),
            is_at_root: is_root && !lines[first].starts_with(char::is_whitespace),
        })
    });
    functions.listed()
}

/// Returns the numbers of the lines of a function whose keyword is in the line with this index. Its
/// last one has a bracket below the beginning of that line.
fn lines_of(lines: &[&str], first: usize) -> Option<RangeInclusive<u32>> {
    let line = lines.get(first)?;
    let indent = &line[..line.len() - line.trim_start().len()];
    let is_whole = line.contains('{') && line.matches('{').count() == line.matches('}').count();
    let is_end = |line: &&str| {
        line.strip_prefix(indent)
            .is_some_and(|rest| rest.trim_end() == "}")
    };
    let last = if is_whole {
        first
    } else {
        first + 1 + lines[first + 1..].iter().position(is_end)?
    };
    Some(first as u32 + 1..=last as u32 + 1)
}

/// Returns a text without what may be between the attributes of a function and its keyword, and
/// whether the function is `async`.
fn without_qualifiers(text: &str) -> (&str, bool) {
    const QUALIFIERS: [&str; 7] = [
        "pub",
        "pub(crate)",
        "pub(super)",
        "async",
        "const",
        "unsafe",
        "extern \"C\"",
    ];
    let (mut before, mut is_async) = (text.trim_end(), false);
    while let Some(found) = QUALIFIERS.iter().find(|it| before.ends_with(*it)) {
        is_async |= *found == "async";
        before = before[..before.len() - found.len()].trim_end();
    }
    (before, is_async)
}

/// Returns the attributes at the end of this text, the last one first.
fn attributes_before(text: &str) -> impl Iterator<Item = &str> {
    let mut before = text;
    std::iter::from_fn(move || {
        before = without_comments(before);
        let inside = before.strip_suffix(']')?;
        let start = start_of_brackets(inside)?;
        before = before[..start].strip_suffix('#')?;
        Some(inside[start + 1..].trim())
    })
}

/// Returns a text without the comments of whole lines, and the blanks, at its end.
fn without_comments(text: &str) -> &str {
    let mut text = text.trim_end();
    while let Some(start) = comment_at_end(text) {
        text = text[..start].trim_end();
    }
    text
}

/// Returns where the last line begins, if it is a comment.
fn comment_at_end(text: &str) -> Option<usize> {
    let start = text.rfind('\n').map_or(0, |at| at + 1);
    text[start..]
        .trim_start()
        .starts_with("//")
        .then_some(start)
}

/// Returns where the bracket is that the one behind this text closes.
fn start_of_brackets(text: &str) -> Option<usize> {
    let mut open = 1;
    let brackets = text.char_indices().rev().filter(|(_, c)| "[]".contains(*c));
    for (at, bracket) in brackets {
        open = if bracket == ']' { open + 1 } else { open - 1 };
        if open == 0 {
            return Some(at);
        }
    }
    None
}

#[cfg(test)]
mod tests {
    use super::*;

    #[test]
    fn tests_are_known_by_their_attributes() {
        let source = r#"
            //! fn in_a_comment() is none.
            fn worker() {}
            #[test]
            fn plain() {}
            /// Says what it tests.
            #[tokio::test(flavor = "multi_thread", worker_threads = 2)]
            // A reason.
            pub async fn on_tokio() -> Result<(), RecvError> { fn helper() {} }
            #[test] #[should_panic(expected = "a[0]")]
            fn refused() { let worker = "fn text"; }
            #[rstest]
            #[case([1, 2])]
            async fn cases(#[case] ids: [u32; 2]) {}
            #[cfg(test)]
            fn given() {}
            #[cfg(test)]
            mod tests { fn inner() {} }
        "#;
        let found = tests_in(Path::new("tests/bus.rs"), source, true);
        let told = found
            .iter()
            .map(|test| (&*test.name, test.should_panic, test.is_async, test.returns));
        let wanted = [
            ("plain", false, false, false),
            ("on_tokio", false, true, true),
            ("refused", true, false, false),
            ("cases", false, true, false),
        ];
        assert_eq!(told.collect::<Vec<_>>(), wanted);
        assert!(found.iter().all(|test| !test.is_at_root));
    }

    #[test]
    fn a_place_is_in_the_function_that_has_its_line() {
        let source = "#[test]\nfn one() { work(); }\n\n#[test]\nfn several() {\n    if true {\n    }\n}\n\nmod inner {\n    #[test]\n    fn within() {\n        work();\n    }\n}\n";
        let found = tests_in(Path::new("tests/bus.rs"), source, true);
        let told = found
            .iter()
            .map(|test| (&*test.name, test.lines.clone().unwrap(), test.is_at_root));
        let wanted = [
            ("one", 2..=2, true),
            ("several", 5..=8, true),
            ("within", 12..=14, false),
        ];
        assert_eq!(told.collect::<Vec<_>>(), wanted);
        assert_eq!(lines_of(&["fn endless() {", "  }"], 0), None);
    }

    #[test]
    fn this_thread_is_known_and_others_are_not() {
        assert!(may_report(
            "harness::automatic::tests_of_program::tests::this_thread_is_known_and_others_are_not"
        ));
        assert!(may_report("tests_are_known_by_their_attributes::case_1"));
        for other in ["main", "tokio-rt-worker", "worker", "a b", "", "tests_in"] {
            assert!(!may_report(other), "{other}");
        }
    }
}
