//! Rooms to talk in.

use std::thread::{Builder, JoinHandle};

use tokio::sync::broadcast;
use tokio::sync::broadcast::error::RecvError;

#[derive(Clone, Debug, PartialEq)]
pub struct Message {
    pub from: String,
    pub text: String,
}

pub struct Room {
    messages: broadcast::Sender<Message>,
}

impl Room {
    pub fn new(capacity: usize) -> Self {
        Room {
            messages: broadcast::Sender::new(capacity),
        }
    }

    pub fn join(&self, name: &str) -> Member {
        Member {
            name: name.to_string(),
            inbox: self.messages.subscribe(),
        }
    }

    /// Says something to all, and returns to how many.
    pub fn say(&self, from: &str, text: &str) -> usize {
        self.try_say(from, text).unwrap()
    }

    pub fn try_say(
        &self,
        from: &str,
        text: &str,
    ) -> Result<usize, broadcast::error::SendError<Message>> {
        let message = Message {
            from: from.to_string(),
            text: text.to_string(),
        };
        self.messages.send(message)
    }
}

pub struct Member {
    pub name: String,
    inbox: broadcast::Receiver<Message>,
}

impl Member {
    pub async fn hear(&mut self) -> Result<Message, RecvError> {
        self.inbox.recv().await
    }

    /// Reads what has come.
    pub fn catch_up(&mut self) {
        if let Ok(message) = self.inbox.try_recv() {
            println!("{}: {}", message.from, message.text);
        }
    }

    pub fn is_up_to_date(&self) -> bool {
        self.inbox.is_empty()
    }

    /// Hears one message, and goes.
    pub async fn hear_and_leave(mut self) -> String {
        let heard = self.inbox.recv().await.unwrap();
        heard.text
    }

    /// Writes down what is said, on a thread of its own, once the file is open.
    pub fn log(mut self, opened: std::sync::mpsc::Receiver<()>) -> JoinHandle<Vec<String>> {
        let logger = Builder::new().name("logger".to_string());
        logger
            .spawn(move || {
                opened.recv().unwrap();
                let mut lines = Vec::new();
                loop {
                    match self.inbox.blocking_recv() {
                        Ok(message) => lines.push(message.text),
                        Err(RecvError::Closed) => return lines,
                        Err(why) => panic!("the log has a gap: {why}"),
                    }
                }
            })
            .unwrap()
    }
}
