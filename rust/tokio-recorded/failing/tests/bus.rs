use std::time::Duration;

use backend::bus::{self, BUS, Client, Event, EventBus};
use backend::importer::{self, Limit};
use backend::registry::{self, Registry};
use tokio::sync::broadcast::error::TryRecvError;
use tokio::sync::{broadcast, mpsc};
use tokio::time::timeout;
use yovanelum::{Recorder, name, show};

#[tokio::test]
async fn the_audit_sees_every_order() {
    let recorder = Recorder::for_test("the_audit_sees_every_order");
    let bus = EventBus::new(4);
    let mut audit = bus.subscribe();
    name!(recorder, &audit, "audit");
    show!(recorder, &audit, |event: &Event| format!("{event:?}"));
    bus::place_all(&bus, 1..=6);
    let orders = bus::drain(&mut audit).unwrap();
    assert_eq!(orders.len(), 6);
}

#[tokio::test]
async fn each_order_has_an_invoice() {
    let _recorder = Recorder::for_test("each_order_has_an_invoice");
    let bus = EventBus::new(4);
    let _archive = bus.subscribe();
    let invoices = tokio::spawn(bus::write_invoices(bus.subscribe()));
    bus::place_all(&bus, 1..=10);
    bus.publish(Event::Shipped(1));
    drop(bus);
    assert_eq!(invoices.await.unwrap(), 10);
}

#[tokio::test]
async fn a_newcomer_is_welcomed() {
    let _recorder = Recorder::for_test("a_newcomer_is_welcomed");
    let bus = EventBus::open(8);
    let mut newcomer = bus.subscribe();
    let welcome = timeout(Duration::from_millis(50), newcomer.recv()).await;
    assert_eq!(welcome.expect("a welcome"), Ok(Event::Welcome));
}

#[tokio::test]
async fn the_static_bus_keeps_up() {
    let _recorder = Recorder::for_test("the_static_bus_keeps_up");
    let mut listener = BUS.subscribe();
    let shipping = tokio::spawn(async {
        for id in 1..=12 {
            BUS.publish(Event::Shipped(id));
        }
    });
    shipping.await.unwrap();
    let first = listener.recv().await;
    assert_eq!(first, Ok(Event::Shipped(1)));
}

#[tokio::test]
async fn a_client_goes_on_after_a_reconnect() {
    let _recorder = Recorder::for_test("a_client_goes_on_after_a_reconnect");
    let bus = EventBus::new(16);
    let mut client = Client::connect(&bus);
    bus::place_all(&bus, 1..=3);
    assert_eq!(client.next().await, Ok(Event::Placed(1)));
    client.reconnect();
    bus::place_all(&bus, 4..=5);
    assert_eq!(client.next().await, Ok(Event::Placed(2)));
}

#[test]
fn six_are_one_too_many_for_five() {
    let recorder = Recorder::for_test("six_are_one_too_many_for_five");
    let (bus, mut slow) = broadcast::channel(5);
    name!(recorder, &bus, "bus");
    name!(recorder, &slow, "slow");
    for id in 1..=6 {
        bus.send(id).unwrap();
    }
    assert_eq!(slow.try_recv(), Err(TryRecvError::Lagged(1)));
}

#[tokio::test]
async fn the_importer_announces_each_row() {
    let recorder = Recorder::for_test("the_importer_announces_each_row");
    let (announced, mut rows) = broadcast::channel(16);
    name!(recorder, &rows, "rows");
    let _import = importer::import(vec!["71", "72", "7x", "74"], announced);
    for id in 71..=74 {
        assert_eq!(rows.recv().await.unwrap(), id);
    }
}

#[tokio::test]
async fn an_import_of_three_rows_is_within_the_limit() {
    let _recorder = Recorder::for_test("an_import_of_three_rows_is_within_the_limit");
    let (net, incoming) = mpsc::channel(8);
    let (announced, mut rows) = broadcast::channel(16);
    let import = importer::import_stream(incoming, announced);
    let limit = Limit { rows: 2 };
    for id in 1..=3 {
        let _ = net.send(id).await;
        assert_eq!(rows.recv().await.expect("a row"), id);
        limit.check(id as usize, &import);
    }
}

#[tokio::test]
async fn what_is_seeded_comes_before_what_is_new() {
    let recorder = Recorder::for_test("what_is_seeded_comes_before_what_is_new");
    let (orders, mut desk) = broadcast::channel(8);
    name!(recorder, &orders, "orders");
    name!(recorder, &desk, "desk");
    assert_eq!(bus::seed(orders, &[1, 2]), 2);
    assert_eq!(desk.recv().await, Ok(Event::Placed(1)));
    assert_eq!(desk.recv().await, Ok(Event::Placed(2)));
    assert_eq!(desk.recv().await, Ok(Event::Placed(3)));
}

#[tokio::test]
async fn a_topic_ends_with_its_sender() {
    let _recorder = Recorder::for_test("a_topic_ends_with_its_sender");
    let mut registry = Registry::default();
    let orders = registry.topic("orders");
    let lines = tokio::spawn(registry::collect(orders.subscribe()));
    orders.send("one".to_string()).unwrap();
    orders.send("two".to_string()).unwrap();
    drop(orders);
    let lines = timeout(Duration::from_millis(100), lines)
        .await
        .expect("the topic ended");
    assert_eq!(lines.unwrap(), ["one", "two"]);
}
