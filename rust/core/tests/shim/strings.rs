//! `String` and `format!`.

use crate::random::Random;
use crate::shim::alloc::{AllocError, Global};
use crate::shim::{String, format};
use std::fmt::{self, Write};

#[test]
fn what_is_pushed_stands_at_the_end() {
    let pieces = ["", "a", "é", "€", "🦀", "send 0 71 -> 2\n"];
    let mut random = Random::new(1);
    let mut text = String::new(Global);
    let mut model = std::string::String::new();
    for _ in 0..2_000 {
        let piece = pieces[random.below(pieces.len())];
        if random.below(2) == 0 {
            text.push_str(piece).unwrap();
        } else {
            text.write_str(piece).unwrap();
        }
        model.push_str(piece);
        assert_eq!(*text, *model);
    }
}

#[test]
fn format_writes_what_rust_writes() {
    let (number, name) = (17, "audit");
    let text = format!(in Global; "{name} {number:>4} {}\n", '€').unwrap();
    assert_eq!(&*text, "audit   17 €\n");
    assert_eq!(&*format!(in Global; "").unwrap(), "");
}

#[test]
fn an_error_of_a_value_is_an_error_of_format() {
    struct Unprintable;

    impl fmt::Display for Unprintable {
        fn fmt(&self, _: &mut fmt::Formatter<'_>) -> fmt::Result {
            Err(fmt::Error)
        }
    }
    assert_eq!(format!(in Global; "a {Unprintable}"), Err(AllocError));
}
