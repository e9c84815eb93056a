//! What comes in: requests, and the output of a test that runs.

use crate::message;
use std::collections::VecDeque;
use std::io::{self, BufReader, Read};
use std::sync::mpsc::{self, Receiver, Sender};
use std::thread;

/// Something that has come in.
pub(crate) enum Incoming {
    Message(Vec<u8>),
    /// A line of what cargo prints in a build, or in the run of a test with this number.
    Line(Option<u64>, String),
    /// A stream of the run with this number has ended.
    Ended(u64),
    /// What cargo has said of a build that has ended.
    Built(Vec<u8>),
    /// No message can be found any more, if there is an error. Else the stream has ended.
    NoMore(Option<io::Error>),
}

/// The queue of what has come in.
pub(crate) struct Inbox {
    sender: Sender<Incoming>,
    receiver: Receiver<Incoming>,
    // Messages that came while a test ran.
    waiting: VecDeque<Incoming>,
}

impl Inbox {
    /// Reads messages from a stream, in a thread of its own.
    pub(crate) fn over(input: impl Read + Send + 'static) -> Inbox {
        let (sender, receiver) = mpsc::channel();
        let reader = sender.clone();
        thread::spawn(move || {
            let mut input = BufReader::new(input);
            loop {
                let (incoming, is_last) = match message::read(&mut input) {
                    Ok(Some(bytes)) => (Incoming::Message(bytes), false),
                    Ok(None) => (Incoming::NoMore(None), true),
                    Err(fault) => (Incoming::NoMore(Some(fault)), true),
                };
                if reader.send(incoming).is_err() || is_last {
                    return;
                }
            }
        });
        Inbox {
            sender,
            receiver,
            waiting: VecDeque::new(),
        }
    }

    /// Returns a sender for a test's output.
    pub(crate) fn sender(&self) -> Sender<Incoming> {
        self.sender.clone()
    }

    /// Returns what comes next, also what was put back.
    pub(crate) fn next(&mut self) -> Incoming {
        match self.waiting.pop_front() {
            Some(incoming) => incoming,
            None => self.next_new(),
        }
    }

    /// Returns what comes next, without what was put back.
    pub(crate) fn next_new(&mut self) -> Incoming {
        self.receiver.recv().unwrap_or(Incoming::NoMore(None))
    }

    /// Keeps something for later.
    pub(crate) fn put_back(&mut self, incoming: Incoming) {
        self.waiting.push_back(incoming);
    }
}
