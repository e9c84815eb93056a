//! How a call ends where memory is refused. Where a crate asks for it that can't be refused, that
//! is the end of the process, so the call is made in one of its own.

use crate::refusing::{Refusal, refusing};
use std::env;
use std::process::{Command, Output};

/// The variable that says which request is refused, in the process that makes a call.
const ALLOWED: &str = "YOVANELUM_ALLOWED";

/// How a call ends whose request is refused.
#[derive(Clone, Copy, Debug, PartialEq, Eq)]
pub enum End {
    /// It returns an error.
    Error,
    /// The process ends.
    Process,
}

/// Makes a call with each of its requests refused in turn, and returns how it ended for each.
///
/// `test` is the path of the test that calls this. It is run again for each request.
pub fn ends<T, E>(test: &str, call: impl FnOnce() -> Result<T, E>) -> Vec<End> {
    if let Ok(allowed) = env::var(ALLOWED) {
        let refusal = Refusal::only(allowed.parse().unwrap());
        let (result, refused) = refusing(refusal, call);
        std::process::exit(match (result, refused) {
            (Ok(_), 0) => 10,
            (Err(_), 1) => 11,
            _ => 12,
        });
    }
    let mut found = Vec::new();
    loop {
        let ran = run_again(test, found.len());
        let said = String::from_utf8_lossy(&ran.stderr);
        match ran.status.code() {
            Some(10) => return found,
            Some(11) => found.push(End::Error),
            _ if said.starts_with("memory allocation of ") => found.push(End::Process),
            _ => panic!("request {}: {}, {said}", found.len(), ran.status),
        }
    }
}

/// Runs a test again, in which the request after `allowed` others is refused.
fn run_again(test: &str, allowed: usize) -> Output {
    Command::new(env::current_exe().unwrap())
        .args([test, "--exact", "--test-threads=1"])
        .env(ALLOWED, allowed.to_string())
        .output()
        .unwrap()
}
