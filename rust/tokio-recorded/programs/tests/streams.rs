//! The wrappers of tokio-stream over the two channels, as their documentation says.

use tokio::sync::{broadcast, watch};
use tokio_stream::wrappers::errors::BroadcastStreamRecvError;
use tokio_stream::wrappers::{BroadcastStream, WatchStream};
use tokio_stream::{StreamExt, StreamMap};

#[tokio::test]
async fn a_broadcast_stream_has_each_value_and_the_lag() {
    let (orders, rx) = broadcast::channel(2);
    let mut stream = BroadcastStream::new(rx);
    for id in [71, 72, 73] {
        orders.send(id).unwrap();
    }
    drop(orders);
    let lagged = Some(Err(BroadcastStreamRecvError::Lagged(1)));
    assert_eq!(stream.next().await, lagged);
    assert_eq!(stream.next().await, Some(Ok(72)));
    assert_eq!(stream.next().await, Some(Ok(73)));
    assert_eq!(stream.next().await, None);
}

#[tokio::test]
async fn a_broadcast_stream_waits_for_the_next_value() {
    let (orders, rx) = broadcast::channel(2);
    let audit = tokio::spawn(BroadcastStream::from(rx).collect::<Vec<_>>());
    for id in [71, 72] {
        orders.send(id).unwrap();
        tokio::task::yield_now().await;
    }
    drop(orders);
    assert_eq!(audit.await.unwrap(), [Ok(71), Ok(72)]);
}

#[tokio::test]
async fn a_watch_stream_has_the_current_value_first() {
    let (door, rx) = watch::channel("closed");
    let mut stream = WatchStream::new(rx);
    assert_eq!(stream.next().await, Some("closed"));
    door.send("open").unwrap();
    assert_eq!(stream.next().await, Some("open"));
    drop(door);
    assert_eq!(stream.next().await, None);
}

#[tokio::test]
async fn streams_of_several_rooms_are_merged() {
    let (lobby, in_lobby) = broadcast::channel(4);
    let (kitchen, in_kitchen) = broadcast::channel(4);
    let mut rooms = StreamMap::new();
    rooms.insert("lobby", BroadcastStream::new(in_lobby));
    rooms.insert("kitchen", BroadcastStream::new(in_kitchen));
    lobby.send(1).unwrap();
    assert_eq!(rooms.next().await, Some(("lobby", Ok(1))));
    kitchen.send(2).unwrap();
    assert_eq!(rooms.next().await, Some(("kitchen", Ok(2))));
    drop((lobby, kitchen));
    assert_eq!(rooms.next().await, None);
}
