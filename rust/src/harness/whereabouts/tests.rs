use super::*;

/// A stack of functions without places.
fn stack(functions: &[&str]) -> PrintedStack {
    let frame = |function: &&str| StackFrame {
        function: function.to_string(),
        place: None,
    };
    PrintedStack {
        frames: functions.iter().map(frame).collect(),
    }
}

#[test]
fn a_thread_of_the_runtime_does_what_tokio_itself_gives_to_it() {
    let joined = "<tokio::runtime::task::join::JoinHandle<T> as core::future::Future>::poll";
    for (function, is_of_thread) in [
        ("tokio::fs::asyncify::{{closure}}", true),
        (
            "tokio::fs::read_to_string::read_to_string::{{closure}}",
            true,
        ),
        (
            "<tokio::io::blocking::Blocking<T> as tokio::io::AsyncRead>::poll_read",
            true,
        ),
        (
            "<tokio::net::addr::sealed::MaybeReady as core::future::Future>::poll",
            true,
        ),
        ("shop::save::{{closure}}", false),
        (
            "<tokio::time::timeout::Timeout<T> as core::future::Future>::poll",
            false,
        ),
    ] {
        let stack = stack(&[joined, function]);
        assert_eq!(waits_for_thread(&stack), is_of_thread, "{function}");
    }
}

#[test]
fn a_line_of_the_program_is_told_before_a_function_without_one() {
    let here = PathBuf::from(env!("CARGO_MANIFEST_DIR"));
    let mut names = Sidecar::default();
    let mut naming = PlaceNaming::new(&mut names, here.clone(), here);
    let mut stack = stack(&["queue::Parked::notify", "shop::print::{{closure}}"]);
    let without = naming.place_of(&stack);
    stack.frames[1].place = Some(("tests/tasks.rs".to_string(), 40, 5));
    let with = naming.place_of(&stack);
    let of_library = Some("queue::Parked::notify".to_string());
    assert_eq!((without.location, without.function), (None, of_library));
    assert_eq!(
        (with.what.as_str(), with.function),
        ("Parked::notify", None)
    );
    let at = with.location.map(|index| &names.locations[index]);
    assert_eq!(
        at.map(|at| (&*at.file, at.line)),
        Some(("tests/tasks.rs", 40))
    );
}
