use std::error::Error;
use std::time::Duration;

use backend::config::{self, Config, Feed};
use backend::service::{State, Supervisor};
use tokio::sync::watch;
use tokio::time::timeout;
use yovanelum::{Recorder, name, show};

#[tokio::test]
async fn an_applied_version_is_not_stale() {
    let _recorder = Recorder::for_test("an_applied_version_is_not_stale");
    let feed = Feed::new();
    let mut reader = feed.reader();
    feed.publish(Config::version(1)).unwrap();
    reader.apply();
    assert_eq!(reader.applied, [1]);
    assert!(
        !reader.is_stale(),
        "the reader has applied the newest version"
    );
}

#[tokio::test]
async fn every_version_is_applied() {
    let _recorder = Recorder::for_test("every_version_is_applied");
    let feed = Feed::new();
    let reader = tokio::spawn(feed.reader().follow());
    for version in 1..=3 {
        feed.publish(Config::version(version)).unwrap();
    }
    tokio::task::yield_now().await;
    drop(feed);
    assert_eq!(reader.await.unwrap(), [1, 2, 3]);
}

#[tokio::test]
async fn the_service_becomes_ready() {
    let recorder = Recorder::for_test("the_service_becomes_ready");
    let (supervisor, mut state) = Supervisor::new();
    name!(recorder, &state, "client");
    show!(recorder, &state, |state: &State| format!("{state:?}"));
    let start = tokio::spawn(async move {
        supervisor.start(80).await;
        supervisor
    });
    let ready = timeout(
        Duration::from_millis(80),
        state.wait_for(|state| *state == State::Ready),
    )
    .await;
    assert!(ready.is_ok(), "the service isn't ready");
    drop(ready);
    drop(start.await.unwrap());
}

#[tokio::test]
async fn a_new_level_is_told() {
    let _recorder = Recorder::for_test("a_new_level_is_told");
    let feed = Feed::new();
    let mut reader = feed.reader();
    feed.set_level(3);
    timeout(Duration::from_millis(50), reader.changed())
        .await
        .expect("told of the level")
        .unwrap();
}

#[tokio::test]
async fn a_second_version_comes() {
    let recorder = Recorder::for_test("a_second_version_comes");
    let (current, mut reader) = watch::channel(Config::default());
    name!(recorder, &current, "config");
    name!(recorder, &reader, "reader");
    let _load = config::load(current);
    reader.changed().await.unwrap();
    assert_eq!(reader.borrow_and_update().version, 1);
    reader.changed().await.unwrap();
    assert_eq!(reader.borrow_and_update().version, 2);
}

#[tokio::test]
async fn a_version_is_published_before_anyone_reads() -> Result<(), Box<dyn Error>> {
    let recorder = Recorder::for_test("a_version_is_published_before_anyone_reads");
    recorder.save_on_err(publish_and_read())
}

fn publish_and_read() -> Result<(), Box<dyn Error>> {
    let feed = Feed::new();
    feed.publish(Config::version(1))?;
    let mut reader = feed.reader();
    reader.apply();
    assert_eq!(reader.applied, [1]);
    Ok(())
}
