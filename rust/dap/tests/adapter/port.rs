//! The program, on its standard streams and on a port.

use serde_json::{Value, json};
use std::io::{BufRead, BufReader, Read, Write};
use std::net::TcpStream;
use std::process::{Child, Command, Output, Stdio};

/// A program that is ended with the test.
struct Started(Child);

impl Drop for Started {
    fn drop(&mut self) {
        let _ = self.0.kill();
        let _ = self.0.wait();
    }
}

fn adapter(words: &[&str]) -> Command {
    let mut command = Command::new(env!("CARGO_BIN_EXE_yovanelum-dap"));
    command
        .args(words)
        .stdin(Stdio::piped())
        .stdout(Stdio::piped());
    command
}

fn framed(command: &str, arguments: Value) -> Vec<u8> {
    let request = json!({"seq": 1, "type": "request", "command": command, "arguments": arguments});
    let text = request.to_string();
    format!("Content-Length: {}\r\n\r\n{text}", text.len()).into_bytes()
}

/// Sends requests to a port, and returns all that comes back.
fn asked(address: &str, requests: &[Vec<u8>]) -> String {
    let mut client = TcpStream::connect(address).unwrap();
    client.write_all(&requests.concat()).unwrap();
    let mut said = String::new();
    client.read_to_string(&mut said).unwrap();
    said
}

#[test]
fn one_client_after_the_other_is_served_and_none_runs_tests() {
    let mut started = Started(adapter(&["--port", "0"]).spawn().unwrap());
    let mut lines = BufReader::new(started.0.stdout.take().unwrap());
    let mut line = String::new();
    lines.read_line(&mut line).unwrap();
    let address = line.trim_end().strip_prefix("listening on ").unwrap();
    assert!(address.starts_with("127.0.0.1:"), "{address}");
    let requests = [
        framed("initialize", json!({})),
        framed("launch", json!({"test": "a_test"})),
        framed("disconnect", json!({})),
    ];
    for _ in 0..2 {
        let said = asked(address, &requests);
        assert!(said.contains("\"supportsStepBack\":true"), "{said}");
        assert!(
            said.contains("start the adapter with `--run-tests`"),
            "{said}"
        );
        assert_eq!(said.matches("\"type\":\"response\"").count(), 3, "{said}");
    }
}

/// Runs the program to its end with this input.
fn ended(words: &[&str], input: &[u8]) -> Output {
    let mut child = adapter(words).stderr(Stdio::piped()).spawn().unwrap();
    // A program that refuses its words reads nothing.
    let _ = child.stdin.take().unwrap().write_all(input);
    child.wait_with_output().unwrap()
}

#[test]
fn bytes_that_are_no_message_end_with_status_1_and_wrong_words_with_2() {
    let whole = ended(&[], &framed("disconnect", json!({})));
    assert_eq!(whole.status.code(), Some(0));
    let wrong = ended(&[], b"GET / HTTP/1.1\r\n\r\n");
    assert_eq!(wrong.status.code(), Some(1));
    let said = String::from_utf8(wrong.stdout).unwrap();
    assert!(said.contains("a line of a header has no colon"), "{said}");
    for words in [
        &["--port"][..],
        &["--port", "65536"],
        &["x"],
        &["--run-tests"],
    ] {
        let refused = ended(words, b"");
        let said = String::from_utf8(refused.stderr).unwrap();
        assert_eq!(refused.status.code(), Some(2), "{said}");
        assert!(said.contains("\n\nUsage: yovanelum-dap"), "{said}");
    }
}
