//! A client of the adapter, in this process, and the runs that it debugs.
#![allow(dead_code)]

use serde_json::{Value, json};
use std::fs;
use std::io::{self, Read, Write};
use std::path::PathBuf;
use std::sync::atomic::{AtomicU32, Ordering};
use std::sync::mpsc::{self, Receiver, Sender};
use std::thread::{self, JoinHandle};
use std::time::Duration;
use yovanelum::{Recorder, broadcast};
use yovanelum_dap::{Options, serve};

/// How long an answer may take. It is far more than any takes.
const PATIENCE: Duration = Duration::from_secs(1800);

/// The threads of the bus: the ticker makes the first call.
pub const TICKER: u64 = 1;
pub const AUDITOR: u64 = 2;

/// How many random runs are made: this many, or as many as the variable `YOVANELUM_RUNS` says.
pub fn runs(usual: u64) -> u64 {
    let wanted = std::env::var("YOVANELUM_RUNS").ok();
    wanted.map_or(usual, |wanted| wanted.parse().unwrap())
}

/// Random numbers from a seed (xorshift64*).
pub struct Random(u64);

impl Random {
    pub fn new(seed: u64) -> Random {
        Random(seed.wrapping_mul(0x9E37_79B9_7F4A_7C15) | 1)
    }

    pub fn below(&mut self, n: usize) -> usize {
        self.0 ^= self.0 >> 12;
        self.0 ^= self.0 << 25;
        self.0 ^= self.0 >> 27;
        (self.0.wrapping_mul(0x2545_F491_4F6C_DD1D) >> 33) as usize % n
    }

    pub fn of<'a, T>(&mut self, items: &'a [T]) -> &'a T {
        &items[self.below(items.len())]
    }
}

/// A folder of a test's own, which is removed at its end.
pub struct Folder(pub PathBuf);

impl Folder {
    pub fn new() -> Folder {
        static COUNT: AtomicU32 = AtomicU32::new(0);
        let number = COUNT.fetch_add(1, Ordering::Relaxed);
        let path =
            std::env::temp_dir().join(format!("yovanelum-dap-{}-{number}", std::process::id()));
        fs::create_dir_all(&path).unwrap();
        Folder(path)
    }

    pub fn path(&self, name: &str) -> PathBuf {
        self.0.join(name)
    }
}

impl Drop for Folder {
    fn drop(&mut self) {
        let _ = fs::remove_dir_all(&self.0);
    }
}

/// Reads what is sent to a channel.
struct Incoming {
    chunks: Receiver<Vec<u8>>,
    rest: Vec<u8>,
}

impl Read for Incoming {
    fn read(&mut self, buffer: &mut [u8]) -> io::Result<usize> {
        if self.rest.is_empty() {
            self.rest = self.chunks.recv().unwrap_or_default();
        }
        let count = self.rest.len().min(buffer.len());
        buffer[..count].copy_from_slice(&self.rest[..count]);
        self.rest.drain(..count);
        Ok(count)
    }
}

/// Sends what is written to a channel.
struct Outgoing(Sender<Vec<u8>>);

impl Write for Outgoing {
    fn write(&mut self, bytes: &[u8]) -> io::Result<usize> {
        let sent = self.0.send(bytes.to_vec());
        sent.map_err(|_| io::Error::from(io::ErrorKind::BrokenPipe))?;
        Ok(bytes.len())
    }

    fn flush(&mut self) -> io::Result<()> {
        Ok(())
    }
}

/// A client, and what it was told.
pub struct Client {
    requests: Option<Sender<Vec<u8>>>,
    answers: Receiver<Vec<u8>>,
    bytes: Vec<u8>,
    count: u64,
    // The number of the last message of the adapter.
    received: u64,
    served: Option<JoinHandle<bool>>,
    /// The events that have come since they were taken last.
    pub events: Vec<Value>,
}

impl Client {
    pub fn new(runs_tests: bool) -> Client {
        let (requests, chunks) = mpsc::channel();
        let (out, answers) = mpsc::channel();
        let input = Incoming {
            chunks,
            rest: vec![],
        };
        let served = thread::spawn(move || serve(input, Outgoing(out), Options { runs_tests }));
        Client {
            requests: Some(requests),
            answers,
            bytes: vec![],
            count: 0,
            received: 0,
            served: Some(served),
            events: vec![],
        }
    }

    pub fn send_bytes(&mut self, bytes: &[u8]) {
        self.requests
            .as_ref()
            .unwrap()
            .send(bytes.to_vec())
            .unwrap();
    }

    pub fn send(&mut self, message: &Value) {
        let text = message.to_string();
        self.send_bytes(format!("Content-Length: {}\r\n\r\n{text}", text.len()).as_bytes());
    }

    /// Returns the next message of the adapter, whose messages have numbers one after the other.
    pub fn next(&mut self) -> Value {
        loop {
            if let Some((message, length)) = first_message(&self.bytes) {
                self.bytes.drain(..length);
                self.received += 1;
                assert_eq!(message["seq"], self.received, "{message}");
                return message;
            }
            self.bytes
                .extend(self.answers.recv_timeout(PATIENCE).expect("an answer"));
        }
    }

    /// Sends a request, and returns the whole response.
    pub fn respond(&mut self, command: &str, arguments: Value) -> Value {
        self.count += 1;
        let seq = self.count;
        self.send(
            &json!({"seq": seq, "type": "request", "command": command, "arguments": arguments}),
        );
        loop {
            let message = self.next();
            if message["type"] == "response" {
                assert_eq!(
                    (&message["request_seq"], &message["command"]),
                    (&seq.into(), &command.into())
                );
                return message;
            }
            self.events.push(message);
        }
    }

    /// Sends a request, and returns the body of the response, which is right.
    pub fn ask(&mut self, command: &str, arguments: Value) -> Value {
        let response = self.respond(command, arguments);
        assert_eq!(response["success"], true, "{response}");
        response["body"].clone()
    }

    /// Sends a request that is refused, and returns why.
    pub fn refusal(&mut self, command: &str, arguments: Value) -> String {
        let response = self.respond(command, arguments);
        assert_eq!(response["success"], false, "{response}");
        assert_eq!(response["body"]["error"]["format"], response["message"]);
        response["message"].as_str().unwrap().to_string()
    }

    /// Waits for an event of this name, and returns its body. Those before it are dropped.
    pub fn event(&mut self, name: &str) -> Value {
        let mut early = std::mem::take(&mut self.events).into_iter();
        let found = early.find(|event| event["event"] == name);
        self.events = early.collect();
        let mut event = found.unwrap_or_else(|| self.next());
        while event["event"] != name {
            event = self.next();
        }
        event["body"].clone()
    }

    /// Launches, and returns the first stop.
    pub fn launch(&mut self, arguments: Value) -> Value {
        self.ask("initialize", json!({"adapterID": "yovanelum"}));
        self.ask("launch", arguments);
        self.event("initialized");
        self.ask("configurationDone", json!({}));
        self.event("stopped")
    }

    /// Makes a move, and returns the stop.
    pub fn go(&mut self, command: &str, arguments: Value) -> Value {
        self.ask(command, arguments);
        self.event("stopped")
    }

    /// Returns the frames of a thread.
    pub fn frames(&mut self, thread: u64) -> Vec<Value> {
        let answer = self.ask("stackTrace", json!({"threadId": thread, "levels": 1000}));
        answer["stackFrames"].as_array().unwrap().clone()
    }

    /// Returns what the console prints.
    pub fn console(&mut self, text: &str) -> String {
        let answer = self.ask("evaluate", json!({"expression": text, "context": "repl"}));
        answer["result"].as_str().unwrap().to_string()
    }

    /// Ends the session. Returns whether all of its bytes were messages.
    pub fn end(mut self) -> bool {
        self.requests = None;
        self.served.take().unwrap().join().unwrap()
    }
}

/// Returns the first message of these bytes, and their length, if it is whole.
pub fn first_message(bytes: &[u8]) -> Option<(Value, usize)> {
    let text = String::from_utf8_lossy(bytes);
    let (header, _) = text.split_once("\r\n\r\n")?;
    let length: usize = header.strip_prefix("Content-Length: ")?.parse().unwrap();
    let start = header.len() + 4;
    let body = bytes.get(start..start + length)?;
    Some((serde_json::from_slice(body).unwrap(), start + length))
}

/// The lines of this file at which the calls of [`save_bus`] are made.
pub struct Lines {
    pub send: u32,
    pub recv: u32,
}

/// The path of this file, as cargo says it where the test runs.
pub fn this_file() -> PathBuf {
    let package = std::env::var_os("CARGO_MANIFEST_DIR").expect("cargo runs the tests");
    PathBuf::from(package).join("tests/adapter/support/mod.rs")
}

/// Saves the run of a ticker and an auditor as NAME.journal: of three prices in a channel of two,
/// the auditor loses the first. Then the ticker closes the channel.
pub fn save_bus(folder: &Folder, name: &str) -> (PathBuf, Lines) {
    let recorder = Recorder::new();
    let entered = recorder.enter();
    let (tx, mut rx) = broadcast::channel::<u32>(2);
    recorder
        .name(&tx, "prices")
        .show(&tx, |price| format!("{price} EUR"));
    drop(entered);
    let ticker = thread::Builder::new().name("ticker".into());
    let send = line!() + 3;
    let ticker = ticker.spawn(move || {
        for price in 101..=103 {
            tx.send(price).unwrap();
        }
    });
    ticker.unwrap().join().unwrap();
    let auditor = thread::Builder::new().name("auditor".into());
    let recv = line!() + 3;
    let auditor = auditor.spawn(move || {
        loop {
            match rx.try_recv() {
                Err(broadcast::error::TryRecvError::Closed) => return,
                _price_or_loss => {}
            }
        }
    });
    auditor.unwrap().join().unwrap();
    let path = folder.path(&format!("{name}.journal"));
    recorder.save(&path).unwrap();
    (path, Lines { send, recv })
}

/// Launches the bus, whose calls 1 to 3 are sends, 4 and 9 drops, and 5 to 8 receives, of which the
/// first is told that it lagged. These are arguments beside its journal.
pub fn launched(mut arguments: Value) -> (Folder, Client, Lines) {
    let folder = Folder::new();
    let (journal, lines) = save_bus(&folder, "bus");
    arguments["journal"] = json!(journal);
    let mut client = Client::new(false);
    client.launch(arguments);
    (folder, client, lines)
}
