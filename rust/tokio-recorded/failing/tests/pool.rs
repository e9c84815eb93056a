use std::sync::Arc;
use std::sync::atomic::{AtomicUsize, Ordering};
use std::time::Duration;

use backend::pool::{self, Pool};
use tokio::sync::{Notify, broadcast};
use tokio::task::JoinSet;
use tokio::time::timeout;
use yovanelum::{Recorder, name};

#[tokio::test(flavor = "multi_thread", worker_threads = 2)]
async fn all_workers_stop() {
    let _recorder = Recorder::for_test("all_workers_stop");
    let loaded = Arc::new(Notify::new());
    let mut pool = Pool::start(4, 2, Arc::clone(&loaded));
    let stop = pool.stop.clone();
    stop.send(()).unwrap();
    loaded.notify_one();
    let ended = timeout(Duration::from_secs(3), pool.join())
        .await
        .expect("all workers stop");
    assert_eq!(ended.len(), 4);
}

#[tokio::test(flavor = "multi_thread", worker_threads = 2)]
async fn every_job_has_a_price() {
    let _recorder = Recorder::for_test("every_job_has_a_price");
    let prices = pool::price_all(&[14, 26, 13, 33]).await;
    assert_eq!(prices.len(), 4);
}

#[tokio::test]
async fn a_worker_does_five_jobs() {
    let recorder = Recorder::for_test("a_worker_does_five_jobs");
    let (jobs, queue) = broadcast::channel(2);
    name!(recorder, &jobs, "jobs");
    let mut workers = JoinSet::new();
    workers.spawn(pool::work(queue));
    pool::dispatch(&jobs, 1..6);
    drop(jobs);
    let done = workers.join_next().await.unwrap().unwrap();
    assert_eq!(done, 5);
}

#[tokio::test(flavor = "multi_thread", worker_threads = 2)]
async fn jobs_are_done_before_the_shutdown() {
    let recorder = Recorder::for_test("jobs_are_done_before_the_shutdown");
    let (jobs, queue) = broadcast::channel(8);
    name!(recorder, &jobs, "jobs");
    let done = Arc::new(AtomicUsize::new(0));
    pool::dispatch(&jobs, 1..4);
    let worker = pool::start_counting(queue, Arc::clone(&done));
    drop(jobs);
    worker.await.unwrap();
    assert_eq!(done.load(Ordering::Relaxed), 3);
}
