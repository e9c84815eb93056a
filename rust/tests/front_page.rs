//! The failing test of the crate's front page, word for word: what it prints, and what its files
//! name.

mod support;

use std::{fs, panic, thread};
use support::parts::{
    Folder, between, files, is_part, line_after, lines_of_failure, play, relocated,
};

const NAME: &str = "slow_audit";

#[rustfmt::skip]
fn program() {
    // The program of the front page.
    use yovanelum::{Recorder, broadcast};

    let recorder = Recorder::for_test("slow_audit");
    let (orders, mut audit) = broadcast::channel(2);
    recorder.name(&orders, "orders").name(&audit, "audit");
    recorder.show(&orders, |id| format!("order {id}"));
    let mut screen = orders.subscribe();
    for id in [71, 72, 73] {
        orders.send(id).unwrap();
        assert_eq!(screen.try_recv(), Ok(id));
    }
    assert_eq!(audit.try_recv(), Ok(71));
    // Its end.
}

const START: &str = "    // The program of the front page.\n";

/// The text of the front page.
fn front_page() -> String {
    let lines = include_str!("../src/lib.rs").lines();
    let lines = lines.map_while(|line| line.strip_prefix("//!"));
    lines
        .map(|line| format!("{}\n", line.strip_prefix(' ').unwrap_or(line)))
        .collect()
}

#[test]
fn the_program_is_that_of_the_front_page() {
    let lines = between(include_str!("front_page.rs"), START, "    // Its end.\n");
    let lines = lines
        .lines()
        .map(|line| line.strip_prefix("    ").unwrap_or(line));
    let source: String = lines.map(|line| format!("{line}\n")).collect();
    assert_eq!(source, between(&front_page(), "```should_panic\n", "```"));
}

#[test]
#[cfg_attr(target_family = "wasm", ignore = "WebAssembly has no processes")]
#[cfg_attr(windows, ignore = "the text has paths of Unix")]
fn the_program_prints_what_the_front_page_has_of_it() {
    if is_part() {
        // There the test has this name, and so has its thread.
        let test = thread::Builder::new().name(NAME.into()).spawn(program);
        return test
            .unwrap()
            .join()
            .unwrap_or_else(|panicked| panic::resume_unwind(panicked));
    }
    let folder = Folder::new("front-page");
    let page = front_page();
    let (succeeds, said) = play(
        "the_program_prints_what_the_front_page_has_of_it",
        &folder.0,
        None,
    );
    assert!(!succeeds, "{said}");
    let files = files(&folder.0);
    let wanted = between(&page, "```text\nassertion", "```")
        .replace(
            "/shop/target/yovanelum/shop/test-shop",
            &files.display().to_string(),
        )
        .replace("-p shop --test shop", "-p yovanelum --test front_page");
    // There the program begins at line 6.
    let here = line_after(include_str!("front_page.rs"), START.trim_end());
    let wanted = relocated(
        &wanted,
        ("tests/shop.rs", 6),
        ("rust/tests/front_page.rs", here),
    );
    assert_eq!(lines_of_failure(&said), format!("assertion{wanted}"));

    let journal = files.join(format!("{NAME}.journal"));
    let names = fs::read_to_string(journal.with_extension("names")).unwrap();
    for text in [r#""0": "orders""#, r#""2": "order 73""#] {
        assert!(names.contains(text), "{names}");
    }
}
