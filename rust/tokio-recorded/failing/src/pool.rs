//! Pools of workers.

use std::sync::Arc;
use std::sync::atomic::{AtomicUsize, Ordering};

use tokio::sync::{Notify, broadcast, watch};
use tokio::task::JoinSet;

/// Workers that work until they are told to stop.
pub struct Pool {
    pub workers: JoinSet<usize>,
    pub stop: broadcast::Sender<()>,
}

impl Pool {
    /// Starts workers. The one with this number loads a model first, which takes until `loaded`.
    pub fn start(workers: usize, loading: usize, loaded: Arc<Notify>) -> Self {
        let (stop, _) = broadcast::channel(1);
        let mut pool = Pool {
            workers: JoinSet::new(),
            stop,
        };
        for number in 0..workers {
            let stop = pool.stop.clone();
            let loaded = (number == loading).then(|| Arc::clone(&loaded));
            if let Some(loaded) = loaded {
                pool.workers.spawn(async move {
                    loaded.notified().await;
                    let mut stopped = stop.subscribe();
                    drop(stop);
                    let _ = stopped.recv().await;
                    number
                });
            } else {
                let mut stopped = stop.subscribe();
                pool.workers.spawn(async move {
                    drop(stop);
                    let _ = stopped.recv().await;
                    number
                });
            }
        }
        pool
    }

    pub async fn join(&mut self) -> Vec<usize> {
        let mut ended = Vec::new();
        while let Some(number) = self.workers.join_next().await {
            ended.push(number.unwrap());
        }
        ended
    }
}

/// What a job is worth.
fn price(job: u32) -> u32 {
    1300 / (job - 13)
}

/// Has a worker price each job, and returns the results that came.
pub async fn price_all(jobs: &[u32]) -> Vec<u32> {
    let (results, mut priced) = broadcast::channel(16);
    let mut workers = JoinSet::new();
    for &job in jobs {
        let results = results.clone();
        workers.spawn(async move {
            let _ = results.send(price(job));
        });
    }
    drop(results);
    while workers.join_next().await.is_some() {}
    let mut prices = Vec::new();
    while let Ok(price) = priced.recv().await {
        prices.push(price);
    }
    prices
}

/// Hands out all jobs.
pub fn dispatch(jobs: &broadcast::Sender<u32>, ids: std::ops::Range<u32>) {
    for id in ids {
        jobs.send(id).expect("a worker");
    }
}

/// Works until there are no more jobs, and returns how many there were.
pub async fn work(mut jobs: broadcast::Receiver<u32>) -> usize {
    let mut done = 0;
    loop {
        match jobs.recv().await {
            Err(broadcast::error::RecvError::Closed) => return done,
            job => {
                job.expect("a job");
                done += 1;
            }
        }
    }
}

/// Starts a worker that counts what it does, until a shutdown.
pub fn start_counting(
    mut jobs: broadcast::Receiver<u32>,
    done: Arc<AtomicUsize>,
) -> tokio::task::JoinHandle<()> {
    let (_stop, mut stopped) = watch::channel(false);
    tokio::spawn(async move {
        loop {
            tokio::select! {
                biased;
                _ = stopped.changed() => break,
                job = jobs.recv() => match job {
                    Ok(_) => { done.fetch_add(1, Ordering::Relaxed); }
                    Err(_) => break,
                },
            }
        }
    })
}
