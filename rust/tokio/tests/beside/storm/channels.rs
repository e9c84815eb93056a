//! The calls of a script, of tokio's channels and of these by one name.

use super::seat::Waiting;
use super::seen::{Answer, Value};

pub trait Broadcast {
    type Sender: Clone + 'static;
    type Receiver: 'static;

    fn open(capacity: usize) -> (Self::Sender, Self::Receiver);
    fn send(sender: &Self::Sender, value: Value) -> Answer;
    fn subscribe(sender: &Self::Sender) -> Self::Receiver;
    fn receiver_count(sender: &Self::Sender) -> usize;
    fn try_recv(receiver: &mut Self::Receiver) -> Answer;
    fn recv(receiver: &mut Self::Receiver) -> Waiting<'_>;
    fn len(receiver: &Self::Receiver) -> usize;
    fn resubscribe(receiver: &Self::Receiver) -> Self::Receiver;
}

pub trait Watch {
    type Sender: 'static;
    type Receiver: Clone + 'static;

    fn open() -> (Self::Sender, Self::Receiver);
    fn send(sender: &Self::Sender, value: Value) -> Answer;
    fn send_replace(sender: &Self::Sender, value: Value) -> Answer;
    fn send_modify(sender: &Self::Sender, value: Value);
    fn send_if_modified(sender: &Self::Sender, value: Value, tells: bool) -> bool;
    fn subscribe(sender: &Self::Sender) -> Self::Receiver;
    fn receiver_count(sender: &Self::Sender) -> usize;
    fn is_closed(sender: &Self::Sender) -> bool;
    fn value(sender: &Self::Sender) -> u64;
    fn closed(sender: &Self::Sender) -> Waiting<'_>;
    fn changed(receiver: &mut Self::Receiver) -> Waiting<'_>;
    fn has_changed(receiver: &Self::Receiver) -> Answer;
    fn borrow(receiver: &Self::Receiver) -> u64;
    fn borrow_and_update(receiver: &mut Self::Receiver) -> u64;
}

pub struct Tokio;
pub struct This;

macro_rules! broadcast {
    ($of:ty) => {
        impl Broadcast for $of {
            type Sender = Sender<Value>;
            type Receiver = Receiver<Value>;

            fn open(capacity: usize) -> (Self::Sender, Self::Receiver) {
                channel(capacity)
            }

            fn send(sender: &Self::Sender, value: Value) -> Answer {
                match sender.send(value) {
                    Ok(count) => Answer::Sent(count),
                    Err(refused) => Answer::NoReceivers(refused.0.number),
                }
            }

            fn subscribe(sender: &Self::Sender) -> Self::Receiver {
                sender.subscribe()
            }

            fn receiver_count(sender: &Self::Sender) -> usize {
                sender.receiver_count()
            }

            fn try_recv(receiver: &mut Self::Receiver) -> Answer {
                match receiver.try_recv() {
                    Ok(value) => Answer::Value(value.number),
                    Err(TryRecvError::Lagged(lost)) => Answer::Lagged(lost),
                    Err(TryRecvError::Empty) => Answer::Empty,
                    Err(TryRecvError::Closed) => Answer::Closed,
                }
            }

            fn recv(receiver: &mut Self::Receiver) -> Waiting<'_> {
                Box::pin(async {
                    match receiver.recv().await {
                        Ok(value) => Answer::Value(value.number),
                        Err(RecvError::Lagged(lost)) => Answer::Lagged(lost),
                        Err(RecvError::Closed) => Answer::Closed,
                    }
                })
            }

            fn len(receiver: &Self::Receiver) -> usize {
                receiver.len()
            }

            fn resubscribe(receiver: &Self::Receiver) -> Self::Receiver {
                receiver.resubscribe()
            }
        }
    };
}

macro_rules! watch {
    ($of:ty) => {
        impl Watch for $of {
            type Sender = Sender<Value>;
            type Receiver = Receiver<Value>;

            fn open() -> (Self::Sender, Self::Receiver) {
                channel(Value::new(0))
            }

            fn send(sender: &Self::Sender, value: Value) -> Answer {
                match sender.send(value) {
                    Ok(()) => Answer::Stored,
                    Err(refused) => Answer::NoReceivers(refused.0.number),
                }
            }

            fn send_replace(sender: &Self::Sender, value: Value) -> Answer {
                Answer::Old(sender.send_replace(value).number)
            }

            fn send_modify(sender: &Self::Sender, value: Value) {
                sender.send_modify(|it| *it = value);
            }

            fn send_if_modified(sender: &Self::Sender, value: Value, tells: bool) -> bool {
                sender.send_if_modified(|it| {
                    *it = value;
                    tells
                })
            }

            fn subscribe(sender: &Self::Sender) -> Self::Receiver {
                sender.subscribe()
            }

            fn receiver_count(sender: &Self::Sender) -> usize {
                sender.receiver_count()
            }

            fn is_closed(sender: &Self::Sender) -> bool {
                sender.is_closed()
            }

            fn value(sender: &Self::Sender) -> u64 {
                sender.borrow().number
            }

            fn closed(sender: &Self::Sender) -> Waiting<'_> {
                Box::pin(async {
                    sender.closed().await;
                    Answer::Done
                })
            }

            fn changed(receiver: &mut Self::Receiver) -> Waiting<'_> {
                Box::pin(async {
                    match receiver.changed().await {
                        Ok(()) => Answer::Done,
                        Err(_) => Answer::Closed,
                    }
                })
            }

            fn has_changed(receiver: &Self::Receiver) -> Answer {
                receiver.has_changed().map_or(Answer::Closed, Answer::Flag)
            }

            fn borrow(receiver: &Self::Receiver) -> u64 {
                receiver.borrow().number
            }

            fn borrow_and_update(receiver: &mut Self::Receiver) -> u64 {
                receiver.borrow_and_update().number
            }
        }
    };
}

mod broadcast_of_tokio {
    use super::*;
    use tokio::sync::broadcast::error::{RecvError, TryRecvError};
    use tokio::sync::broadcast::{Receiver, Sender, channel};

    broadcast!(Tokio);
}

mod broadcast_of_this {
    use super::*;
    use yovanelum::broadcast::error::{RecvError, TryRecvError};
    use yovanelum::broadcast::{Receiver, Sender, channel};

    broadcast!(This);
}

mod watch_of_tokio {
    use super::*;
    use tokio::sync::watch::{Receiver, Sender, channel};

    watch!(Tokio);
}

mod watch_of_this {
    use super::*;
    use yovanelum::watch::{Receiver, Sender, channel};

    watch!(This);
}
