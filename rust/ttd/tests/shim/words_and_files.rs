//! The words of the command line, files, and the standard streams.

use yovanelum_ttd::shim::alloc::Global;
use yovanelum_ttd::shim::io::{ErrorKind, Read};
use yovanelum_ttd::shim::rt::{AllocGlobal, HostRuntime, Input};
use yovanelum_ttd::shim::{env, fs};

const RT: HostRuntime = HostRuntime;

#[test]
fn the_words_are_those_of_the_process() {
    let words = env::args(&RT).unwrap().collect(RT.alloc()).unwrap();
    let words: std::vec::Vec<&str> = words.iter().map(|word| word.as_str()).collect();
    assert_eq!(words, std::env::args().collect::<std::vec::Vec<_>>());
}

#[test]
fn a_file_is_read() {
    let path = std::path::Path::new(env!("CARGO_MANIFEST_DIR")).join("Cargo.toml");
    let mut text = String::new();
    let mut file = fs::open(&RT, path.to_str().unwrap()).unwrap();
    file.read_to_string(&mut text).unwrap();
    assert_eq!(text, std::fs::read_to_string(path).unwrap());
}

#[test]
fn a_file_that_is_not_there_is_an_error() {
    let opened = fs::open(&RT, "no/such/file");
    assert_eq!(opened.unwrap_err().kind(), ErrorKind::NotFound);
    let opened = fs::open(&RT, "a\0b");
    assert_eq!(opened.unwrap_err().kind(), ErrorKind::InvalidInput);
}

#[test]
fn a_read_of_no_bytes_waits_for_nothing() {
    assert_eq!(RT.reader().read(&mut []).unwrap(), 0);
    let Global = RT.alloc();
}
