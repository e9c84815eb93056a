//! The methods of both channels that came after tokio 1.24, and which of them a version of tokio
//! lacks, by its sources. A test that calls one of these isn't compiled, as over that tokio itself.

use std::fs;
use std::path::Path;

/// The methods that `yovanelum` compiles only where tokio has them.
const LATER: [&str; 21] = [
    "broadcast::Sender::new",
    "broadcast::Sender::downgrade",
    "broadcast::Sender::len",
    "broadcast::Sender::is_empty",
    "broadcast::Sender::same_channel",
    "broadcast::Sender::closed",
    "broadcast::Sender::strong_count",
    "broadcast::Sender::weak_count",
    "broadcast::Receiver::blocking_recv",
    "broadcast::Receiver::same_channel",
    "broadcast::Receiver::is_closed",
    "broadcast::Receiver::sender_strong_count",
    "broadcast::Receiver::sender_weak_count",
    "watch::Sender::new",
    "watch::Sender::clone",
    "watch::Sender::default",
    "watch::Sender::sender_count",
    "watch::Sender::same_channel",
    "watch::Receiver::wait_for",
    "watch::Receiver::mark_changed",
    "watch::Receiver::mark_unchanged",
];

/// The message with which newer versions of tokio panic for a capacity of 0, and its name in the
/// list of what a version lacks.
const CAPACITY_WORDS: (&str, &str) = (
    "broadcast channel capacity cannot be zero",
    "broadcast::channel's words of a capacity",
);

/// Returns the methods that the tokio in this folder lacks, with commas between them. If its
/// sources can't be read, it is taken to have all.
pub fn in_folder(tokio: &Path) -> String {
    let read = |module: &str| fs::read_to_string(tokio.join(format!("src/sync/{module}.rs"))).ok();
    let (Some(broadcast), Some(watch)) = (read("broadcast"), read("watch")) else {
        return String::new();
    };
    let lacking = LATER.iter().filter(|method| {
        let mut names = method.split("::");
        let (module, of_type, name) = (names.next(), names.next(), names.next());
        let source = if module == Some("watch") {
            &watch
        } else {
            &broadcast
        };
        !has(
            source,
            of_type.unwrap_or_default(),
            name.unwrap_or_default(),
        )
    });
    let (words, item) = CAPACITY_WORDS;
    let lacks_words = (!broadcast.contains(words)).then_some(item);
    let lacking = lacking.copied().chain(lacks_words);
    lacking.collect::<Vec<_>>().join(",")
}

/// Whether a source has a method of a type, in an `impl` as rustfmt writes it.
fn has(source: &str, of_type: &str, name: &str) -> bool {
    let mut is_of_type = false;
    source.lines().any(|line| {
        if line.starts_with("impl") {
            is_of_type = implemented(line) == of_type;
        } else if !line.starts_with([' ', '/', '#']) {
            is_of_type &= line.is_empty() || line.starts_with(['{', 'w']);
        }
        is_of_type && is_method(line, name)
    })
}

/// Returns the type whose methods follow a line that begins an `impl`.
fn implemented(line: &str) -> &str {
    let after = match line.split_once(" for ") {
        Some((_, of_type)) => of_type,
        None => line.split_once("> ").map_or("", |(_, of_type)| of_type),
    };
    &after[..after
        .find(|c: char| !c.is_alphanumeric())
        .unwrap_or(after.len())]
}

/// Whether a line begins a method of this name that users may call.
fn is_method(line: &str, name: &str) -> bool {
    let is_other = ["pub(", "//"]
        .iter()
        .any(|it| line.trim_start().starts_with(it));
    let mut after = line.split("fn ").skip(1);
    let named = after.next().and_then(|after| after.strip_prefix(name));
    line.starts_with("    ")
        && !line.starts_with("     ")
        && !is_other
        && named.is_some_and(|rest| rest.starts_with(['(', '<']))
}

#[cfg(test)]
mod tests {
    use super::*;

    const SOURCE: &str = "impl<T> Sender<T> {\n    /// Has `fn closed(&self)`.\n    pub fn send(&self, value: T) {\n        fn closed() {}\n    }\n\
                         \n    pub(super) fn len(&self) {}\n\n    pub async fn\
                          closed_by(&self) {}\n}\n\nimpl<T> Clone for Sender<T> {\n    fn clone(&self) -> Sender<T> {}\n}\n\n\
                         impl<T: Clone> Receiver<T>\nwhere\n    T: Send,\n{\n    pub async fn wait_for<F>(&mut self) {}\n}\n\n\
                          fn is_empty() {}\n";

    #[test]
    fn a_method_is_one_of_its_type_that_users_may_call() {
        for (of_type, name) in [
            ("Sender", "send"),
            ("Sender", "clone"),
            ("Receiver", "wait_for"),
        ] {
            assert!(has(SOURCE, of_type, name), "{of_type}::{name}");
        }
        for (of_type, name) in [
            ("Sender", "closed"),
            ("Sender", "len"),
            ("Receiver", "clone"),
            ("Receiver", "is_empty"),
            ("Sender", "wait_for"),
            ("Sender", "sen"),
        ] {
            assert!(!has(SOURCE, of_type, name), "{of_type}::{name}");
        }
    }

    #[test]
    fn a_tokio_whose_panics_have_other_words_says_so() {
        let folder = std::env::temp_dir().join(format!("lacking-{}", std::process::id()));
        let module = folder.join("src/sync");
        fs::create_dir_all(&module).unwrap();
        fs::write(module.join("watch.rs"), "").unwrap();
        for (source, is_lacking) in [
            ("assert!(capacity > 0, \"capacity is empty\");", true),
            (
                "assert!(capacity > 0, \"broadcast channel capacity cannot be zero\");",
                false,
            ),
        ] {
            fs::write(module.join("broadcast.rs"), source).unwrap();
            let lacking = in_folder(&folder);
            assert_eq!(lacking.ends_with(CAPACITY_WORDS.1), is_lacking, "{lacking}");
        }
        fs::remove_dir_all(&folder).unwrap();
        let library = include_str!("../../channels/broadcast.rs");
        assert!(library.contains(&format!("is_there(\"{}\")", CAPACITY_WORDS.1)));
    }

    #[test]
    fn the_library_asks_for_each_of_these() {
        let sources = concat!(env!("CARGO_MANIFEST_DIR"), "/src/channels");
        let files = [
            "broadcast/sender.rs",
            "broadcast/receiver.rs",
            "watch/sender.rs",
            "watch/receiver.rs",
        ];
        let texts = files
            .map(|file| fs::read_to_string(format!("{sources}/{file}")).unwrap())
            .concat();
        for method in LATER {
            assert!(
                texts.contains(&format!("only_if_tokio_has!(\"{method}\")")),
                "{method}"
            );
        }
        assert_eq!(texts.matches("only_if_tokio_has!(").count(), LATER.len());
    }
}
