//! Where to look at a run: the address of its page, and a call.

use crate::visible;
use std::env;
use std::fmt::Write;
use std::path::Path;

/// Returns the address of a file on this machine, with the call to look at. 0 is the start of the
/// run.
pub fn address(path: &Path, call: u64) -> String {
    let path = path.to_string_lossy();
    let mut address = String::from("file://");
    if !path.starts_with(['/', std::path::MAIN_SEPARATOR]) {
        address.push('/');
    }
    push_path(&mut address, &path);
    let _ = write!(address, "#call={call}");
    address
}

/// Appends a path with what has a meaning of its own in an address escaped.
pub fn push_path(address: &mut String, path: &str) {
    for byte in path.replace(std::path::MAIN_SEPARATOR, "/").bytes() {
        match byte {
            b'/' | b':' | b'.' | b'_' | b'-' | b'~' => address.push(byte.into()),
            byte if byte.is_ascii_alphanumeric() => address.push(byte.into()),
            byte => {
                let _ = write!(address, "%{byte:02X}");
            }
        }
    }
}

/// Says which call to look at where there is no address for it.
pub fn at_call(call: u64) -> String {
    match call {
        0 => "before the first call".to_string(),
        call => format!("at {}", visible::call(call)),
    }
}

/// Whether colours are written: if it is to a terminal, unless the variable `NO_COLOR` is set,
/// or `TERM` says that it has none.
pub fn has_colours(is_terminal: bool) -> bool {
    let is_unwanted = env::var_os("NO_COLOR").is_some_and(|value| !value.is_empty());
    let is_dumb = env::var_os("TERM").is_some_and(|value| value == "dumb");
    is_terminal && !is_unwanted && !is_dumb
}

#[cfg(test)]
mod tests {
    use super::*;

    #[test]
    fn an_address_has_no_character_of_its_own_meaning() {
        let address = address(Path::new("/bus/tests::it ends #1 100%/é.html"), 3);
        let wanted = "file:///bus/tests::it%20ends%20%231%20100%25/%C3%A9.html#call=3";
        assert_eq!(address, wanted);
    }
}
