//! What `yovanelum why` prints to a terminal.
#![cfg(target_os = "linux")]

mod support;

use std::fs;
use std::process::Command;
use std::sync::atomic::{AtomicUsize, Ordering};
use support::parts::Folder;

/// Two values are sent over a channel of one, and then the receiver is told.
const JOURNAL: &str = "\
ttd-journal 2
broadcast 1
steps
1 0 0 send 0 5 = sent 1
2 0 0 send 0 6 = sent 1
3 1 0 recv 1 = lagged 1
end
";

const NAMES: &str = r#"{"actors": {"0": "shop", "1": "audit"}, "channels": {"0": "orders"},
    "values": {"0": {"5": "the order with number 5"}}}"#;

/// Returns what the command prints with these words to a terminal with this many columns, where
/// these variables are set.
fn printed(columns: usize, words: &str, variables: &[(&str, &str)]) -> String {
    static NEXT: AtomicUsize = AtomicUsize::new(0);
    let number = NEXT.fetch_add(1, Ordering::Relaxed);
    let folder = Folder::new(&format!("terminal-{number}"));
    fs::write(folder.0.join("orders.journal"), JOURNAL).unwrap();
    fs::write(folder.0.join("orders.names"), NAMES).unwrap();
    let command = env!("CARGO_BIN_EXE_yovanelum");
    let line = format!("stty cols {columns}; '{command}' why orders.journal {words}");
    // util-linux's, which runs a line in a terminal of its own.
    let ran = Command::new("script")
        .args(["--quiet", "--return", "--command", &line, "/dev/null"])
        .current_dir(&folder.0)
        .env_remove("GITHUB_ACTIONS")
        .env_remove("NO_COLOR")
        .env("TERM", "xterm")
        .envs(variables.iter().copied())
        .output()
        .expect("script of util-linux");
    assert!(ran.status.success(), "{ran:?}");
    String::from_utf8(ran.stdout).unwrap().replace('\r', "")
}

const DRAWN: &str = "
  audit  ▁█▒█
           ^^
  start to call 3; ^ call 2, call 3; ▒ overwritten
";

#[test]
fn a_terminal_has_the_picture_and_colours() {
    let coloured = DRAWN.replace("▁█▒█", "▁\x1b[34m█\x1b[0m\x1b[31m▒\x1b[0m\x1b[34m█\x1b[0m");
    let text = printed(120, "", &[]);
    assert!(text.contains(&coloured), "{text}");
    assert!(text.starts_with("\x1b[1m\x1b[31merror:\x1b[0m"), "{text}");
}

#[test]
fn no_colours_are_where_they_are_unwanted_or_unknown() {
    for variable in [("NO_COLOR", "1"), ("TERM", "dumb")] {
        let text = printed(120, "", &[variable]);
        assert!(text.contains(DRAWN) && !text.contains('\x1b'), "{text}");
    }
}

#[test]
fn lines_are_broken_where_the_terminal_ends() {
    let text = printed(50, "", &[("NO_COLOR", "1")]);
    let widest = text.lines().map(|line| line.chars().count()).max();
    assert!(widest <= Some(50) && text.contains(DRAWN), "{text}");
    let wanted = "
  call 2   orders.send(value 6)   shop   overwrote
      \"the order with number 5\", which audit had
      not read
";
    assert!(text.contains(wanted), "{text}");
}

#[test]
fn the_picture_may_be_left_out() {
    let text = printed(120, "--no-picture", &[("NO_COLOR", "1")]);
    assert!(!text.contains('▒') && !text.contains("start to"), "{text}");
    let without = printed(120, "", &[("NO_COLOR", "1")]).replace(&DRAWN[1..], "");
    assert_eq!(text, without);
}

#[test]
fn what_is_no_terminal_has_neither_picture_nor_breaks() {
    let text = printed(50, "| cat", &[]);
    let wanted = "\
error: `audit` lost 1 of 2 values of `orders` (capacity 1)
  call 2   orders.send(value 6)   shop   overwrote \"the order with number 5\", which audit had not read
  call 3   told: lagged 1         audit  its last receive: none before
  lost: \"the order with number 5\"
look: `yovanelum open orders.journal`, at call 2
";
    assert_eq!(text, wanted);
}
