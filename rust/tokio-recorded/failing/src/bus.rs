//! The bus of the shop's events.

use std::sync::LazyLock;

use tokio::sync::broadcast;
use tokio::sync::broadcast::error::{RecvError, TryRecvError};

#[derive(Clone, Debug, PartialEq)]
pub enum Event {
    Welcome,
    Placed(u32),
    Shipped(u32),
}

/// The bus of the whole process.
pub static BUS: LazyLock<EventBus> = LazyLock::new(|| EventBus::new(8));

pub struct EventBus {
    events: broadcast::Sender<Event>,
}

impl EventBus {
    pub fn new(capacity: usize) -> Self {
        let (events, _) = broadcast::channel(capacity);
        EventBus { events }
    }

    /// A bus that greets who listens.
    pub fn open(capacity: usize) -> Self {
        let bus = EventBus::new(capacity);
        let _first = bus.subscribe();
        bus.publish(Event::Welcome);
        bus
    }

    pub fn publish(&self, event: Event) -> usize {
        self.events.send(event).unwrap_or(0)
    }

    pub fn subscribe(&self) -> broadcast::Receiver<Event> {
        self.events.subscribe()
    }
}

/// Places an order for each id.
pub fn place_all(bus: &EventBus, ids: impl IntoIterator<Item = u32>) {
    for id in ids {
        bus.publish(Event::Placed(id));
    }
}

/// What a receiver can receive now.
pub fn drain(events: &mut broadcast::Receiver<Event>) -> Result<Vec<Event>, TryRecvError> {
    let mut drained = Vec::new();
    loop {
        match events.try_recv() {
            Ok(event) => drained.push(event),
            Err(TryRecvError::Empty) => return Ok(drained),
            Err(why) => return Err(why),
        }
    }
}

/// Writes an invoice for each order, until the bus closes, and returns how many.
pub async fn write_invoices(mut events: broadcast::Receiver<Event>) -> usize {
    let mut invoices = 0;
    loop {
        match events.recv().await {
            Ok(Event::Placed(_)) => invoices += 1,
            Ok(_) => {}
            Err(RecvError::Lagged(missed)) => eprintln!("invoices: missed {missed} events"),
            Err(RecvError::Closed) => return invoices,
        }
    }
}

/// A client that may lose its connection.
pub struct Client {
    events: broadcast::Receiver<Event>,
}

impl Client {
    pub fn connect(bus: &EventBus) -> Self {
        Client {
            events: bus.subscribe(),
        }
    }

    pub fn reconnect(&mut self) {
        self.events = self.events.resubscribe();
    }

    pub async fn next(&mut self) -> Result<Event, RecvError> {
        self.events.recv().await
    }
}

/// Fills a bus with the orders of a file.
pub fn seed(bus: broadcast::Sender<Event>, ids: &[u32]) -> usize {
    let mut reached = 0;
    for &id in ids {
        reached += bus.send(Event::Placed(id)).unwrap_or(0);
    }
    reached
}
