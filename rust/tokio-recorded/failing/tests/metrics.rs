use std::sync::Arc;
use std::time::Duration;

use backend::metrics::{self, Counters, Exporter};
use tokio::sync::{broadcast, watch};
use tokio::time::timeout;
use yovanelum::{Recorder, name};

#[tokio::test]
async fn the_p99_is_near_the_greatest() {
    let recorder = Recorder::for_test("the_p99_is_near_the_greatest");
    let (samples, gatherer) = broadcast::channel(128);
    name!(recorder, &samples, "samples");
    let gathered = tokio::spawn(metrics::gather(gatherer));
    for sample in 1..=100 {
        samples.send(sample).unwrap();
    }
    drop(samples);
    let gathered = gathered.await.unwrap();
    assert_eq!(gathered.len(), 100);
    assert_eq!(metrics::p99(&gathered), 99);
}

#[tokio::test]
async fn each_label_has_a_count() {
    let _recorder = Recorder::for_test("each_label_has_a_count");
    let (labels, listener) = broadcast::channel(16);
    let counters = Counters::default();
    let _following = counters.follow(listener);
    for label in ["get", "put", "get"] {
        labels.send(label.to_string()).unwrap();
    }
    tokio::task::yield_now().await;
    assert_eq!(counters.count("get"), 2);
    assert_eq!(counters.count("delete"), 0);
}

#[tokio::test]
async fn a_flush_ends() {
    let recorder = Recorder::for_test("a_flush_ends");
    let (labels, listener) = broadcast::channel(16);
    name!(recorder, &labels, "labels");
    let counters = Counters::default();
    let _following = counters.follow(listener);
    let exporter = Arc::new(Exporter::default());
    let running = Arc::clone(&exporter);
    tokio::spawn(async move { running.run().await });
    labels.send("get".to_string()).unwrap();
    tokio::task::yield_now().await;
    assert_eq!(counters.count("get"), 1);
    timeout(Duration::from_millis(50), exporter.flush())
        .await
        .expect("the flush ended");
}

#[tokio::test]
async fn connections_are_never_negative() {
    let recorder = Recorder::for_test("connections_are_never_negative");
    let (open, watched) = watch::channel(0);
    name!(recorder, &open, "connections");
    let tracked = metrics::track(open, vec![2, -1, -2]);
    tracked.await.unwrap();
    assert_eq!(*watched.borrow(), 0);
}
