//! Right programs with keepalives, retries, intervals and leases. Whatever is polled next, none
//! fails, as long as no timer ends by far too early.

use std::sync::atomic::{AtomicU32, Ordering};
use std::sync::Arc;
use tokio::sync::{mpsc, oneshot, Mutex, Notify, Semaphore};
use tokio::task::{spawn, spawn_blocking, yield_now, JoinSet};
use tokio::time::{interval, sleep, timeout, Duration};

const fn ms(count: u64) -> Duration {
    Duration::from_millis(count)
}

/// A connection that writes a keepalive where nothing came to be read for a while.
#[tokio::test]
#[ignore = "it is explored by another test"]
async fn keepalive_beside_a_reader() {
    let (frames, mut read) = mpsc::channel(4);
    let connection = spawn(async move {
        let (mut got, mut pings) = (0, 0);
        loop {
            tokio::select! {
                frame = read.recv() => match frame {
                    Some(frame) => got += frame,
                    None => return (got, pings),
                },
                () = sleep(ms(10)) => pings += 1,
            }
        }
    });
    let peer = spawn(async move {
        for _ in 0..5 {
            frames.send(1).await.unwrap();
            yield_now().await;
        }
    });
    peer.await.unwrap();
    assert_eq!(connection.await.unwrap().0, 5);
}

/// Two connections keep each other alive until both have all.
#[tokio::test]
#[ignore = "it is explored by another test"]
async fn two_keepalives() {
    let (left, of_left) = mpsc::channel(2);
    let (right, of_right) = mpsc::channel(2);
    let side = |send: mpsc::Sender<u32>| async move {
        for frame in 0..3 {
            send.send(frame).await.unwrap();
        }
    };
    let reads = |mut read: mpsc::Receiver<u32>| async move {
        let mut got = 0;
        loop {
            tokio::select! {
                frame = read.recv() => match frame {
                    Some(_) => got += 1,
                    None => return got,
                },
                () = sleep(ms(5)) => {}
            }
        }
    };
    spawn(side(left));
    spawn(side(right));
    for side in [spawn(reads(of_left)), spawn(reads(of_right))] {
        assert_eq!(side.await.unwrap(), 3);
    }
}

/// Asks again until an answer comes, in any number of tries.
#[tokio::test]
#[ignore = "it is explored by another test"]
async fn asks_until_answered() {
    let (asks, mut asked) = mpsc::channel::<oneshot::Sender<u32>>(64);
    spawn(async move {
        while let Some(reply) = asked.recv().await {
            let _ = reply.send(7);
        }
    });
    let client = spawn(async move {
        loop {
            let (reply, answer) = oneshot::channel();
            asks.send(reply).await.unwrap();
            if let Ok(Ok(answer)) = timeout(ms(20), answer).await {
                return answer;
            }
        }
    });
    assert_eq!(client.await.unwrap(), 7);
}

/// Asks at most 20 times: a server that is alive answers one of them.
#[tokio::test]
#[ignore = "it is explored by another test"]
async fn asks_twenty_times() {
    let (asks, mut asked) = mpsc::channel::<oneshot::Sender<u32>>(64);
    spawn(async move {
        while let Some(reply) = asked.recv().await {
            let _ = reply.send(7);
        }
    });
    let client = spawn(async move {
        for _ in 0..20 {
            let (reply, answer) = oneshot::channel();
            asks.send(reply).await.unwrap();
            if let Ok(Ok(answer)) = timeout(ms(20), answer).await {
                return Some(answer);
            }
        }
        None
    });
    assert_eq!(client.await.unwrap(), Some(7));
}

/// Retries with a pause that grows, at most eight times.
#[tokio::test]
#[ignore = "it is explored by another test"]
async fn retries_with_backoff() {
    let slots = Arc::new(Semaphore::new(1));
    let of_holder = slots.clone();
    let (tell, told) = oneshot::channel();
    let holder = spawn(async move {
        let permit = of_holder.acquire().await.unwrap();
        tell.send(()).unwrap();
        yield_now().await;
        drop(permit);
    });
    told.await.unwrap();
    let client = spawn(async move {
        for pause in 0..8 {
            if slots.try_acquire().is_ok() {
                return true;
            }
            sleep(ms(5 << pause)).await;
        }
        false
    });
    holder.await.unwrap();
    assert!(client.await.unwrap());
}

/// An interval that counts while a worker works, and ends with it.
#[tokio::test]
#[ignore = "it is explored by another test"]
async fn ticks_beside_work() {
    let done = Arc::new(Notify::new());
    let of_ticker = done.clone();
    let ticker = spawn(async move {
        let (mut every, mut ticks) = (interval(ms(10)), 0);
        loop {
            tokio::select! {
                _ = every.tick() => ticks += 1,
                () = of_ticker.notified() => return ticks,
            }
        }
    });
    let worker = spawn(async move {
        for _ in 0..6 {
            yield_now().await;
        }
        done.notify_one();
    });
    worker.await.unwrap();
    assert!(ticker.await.unwrap() < 1000);
}

/// A buffer that is flushed by size or by an interval, and at its end.
#[tokio::test]
#[ignore = "it is explored by another test"]
async fn flushed_by_size_or_time() {
    let (items, mut taken) = mpsc::channel(4);
    let writer = spawn(async move {
        let (mut every, mut buffer, mut written) = (interval(ms(15)), Vec::new(), Vec::new());
        loop {
            tokio::select! {
                item = taken.recv() => match item {
                    Some(item) => buffer.push(item),
                    None => {
                        written.append(&mut buffer);
                        return written;
                    }
                },
                _ = every.tick() => written.append(&mut buffer),
            }
            if buffer.len() == 2 {
                written.append(&mut buffer);
            }
        }
    });
    for item in 0..7 {
        items.send(item).await.unwrap();
    }
    drop(items);
    assert_eq!(writer.await.unwrap(), [0, 1, 2, 3, 4, 5, 6]);
}

/// A lease of a second, which its owner renews each 100 milliseconds while it works.
#[tokio::test]
#[ignore = "it is explored by another test"]
async fn renewed_in_time() {
    let lease = Arc::new(Notify::new());
    let of_keeper = lease.clone();
    let (stop, mut stopped) = oneshot::channel::<()>();
    let keeper = spawn(async move {
        loop {
            tokio::select! {
                biased;
                _ = &mut stopped => return true,
                renewed = timeout(ms(1000), of_keeper.notified()) => if renewed.is_err() {
                    return false;
                },
            }
        }
    });
    let owner = spawn(async move {
        for _ in 0..3 {
            lease.notify_one();
            sleep(ms(100)).await;
        }
        stop.send(()).unwrap();
    });
    owner.await.unwrap();
    assert!(keeper.await.unwrap());
}

/// A lock with a lease: whoever has it renews it at a third of its time.
#[tokio::test]
#[ignore = "it is explored by another test"]
async fn a_lease_for_each_owner() {
    let owner = Arc::new(Mutex::new(()));
    let held = Arc::new(AtomicU32::new(0));
    let mut tasks = JoinSet::new();
    for _ in 0..3 {
        let (owner, held) = (owner.clone(), held.clone());
        tasks.spawn(async move {
            let _owner = owner.lock().await;
            assert_eq!(held.fetch_add(1, Ordering::SeqCst), 0);
            let work = async {
                for _ in 0..3 {
                    yield_now().await;
                }
            };
            let renew = async {
                loop {
                    sleep(ms(10)).await;
                }
            };
            tokio::select! {
                () = work => {}
                () = renew => {}
            }
            held.fetch_sub(1, Ordering::SeqCst);
        });
    }
    while let Some(task) = tasks.join_next().await {
        task.unwrap();
    }
}

/// A heart beats each 10 milliseconds, and a monitor gives up after two seconds without one.
#[tokio::test]
#[ignore = "it is explored by another test"]
async fn heart_and_patient_monitor() {
    let (beats, mut heard) = mpsc::channel(16);
    let heart = spawn(async move {
        for beat in 0..6 {
            if beats.send(beat).await.is_err() {
                return;
            }
            sleep(ms(10)).await;
        }
    });
    let monitor = spawn(async move {
        let mut count = 0;
        loop {
            match timeout(ms(2000), heard.recv()).await {
                Ok(Some(_)) => count += 1,
                Ok(None) => return Some(count),
                Err(_) => return None,
            }
        }
    });
    heart.await.unwrap();
    assert_eq!(monitor.await.unwrap(), Some(6));
}

/// Looks again and again whether a task is done, and lets others go on in between.
#[tokio::test]
#[ignore = "it is explored by another test"]
async fn yields_until_it_is_done() {
    let done = Arc::new(AtomicU32::new(0));
    let of_worker = done.clone();
    let worker = spawn(async move {
        for _ in 0..3 {
            yield_now().await;
        }
        of_worker.store(1, Ordering::SeqCst);
    });
    let waiter = spawn(async move {
        for _ in 0..500 {
            if done.load(Ordering::SeqCst) == 1 {
                return true;
            }
            yield_now().await;
        }
        false
    });
    worker.await.unwrap();
    assert!(waiter.await.unwrap());
}

/// Looks each millisecond whether a task is done, for 200 times at most.
#[tokio::test]
#[ignore = "it is explored by another test"]
async fn sleeps_until_it_is_done() {
    let done = Arc::new(AtomicU32::new(0));
    let of_worker = done.clone();
    let worker = spawn(async move {
        yield_now().await;
        of_worker.store(1, Ordering::SeqCst);
    });
    let waiter = spawn(async move {
        for _ in 0..200 {
            if done.load(Ordering::SeqCst) == 1 {
                return true;
            }
            sleep(ms(1)).await;
        }
        false
    });
    worker.await.unwrap();
    assert!(waiter.await.unwrap());
}

/// Two tasks give a ball to each other until a third one says that it is enough.
#[tokio::test]
#[ignore = "it is explored by another test"]
async fn ping_pong_until_told() {
    let (ping, mut pinged) = mpsc::channel::<()>(1);
    let (pong, mut ponged) = mpsc::channel::<()>(1);
    let enough = Arc::new(AtomicU32::new(0));
    let (of_left, of_third) = (enough.clone(), enough);
    let left = spawn(async move {
        while of_left.load(Ordering::SeqCst) == 0 {
            ping.send(()).await.unwrap();
            ponged.recv().await.unwrap();
        }
    });
    let right = spawn(async move {
        while pinged.recv().await.is_some() {
            if pong.send(()).await.is_err() {
                break;
            }
        }
    });
    let third = spawn(async move {
        yield_now().await;
        of_third.store(1, Ordering::SeqCst);
    });
    third.await.unwrap();
    left.await.unwrap();
    right.await.unwrap();
}

/// A pool of threads does what tasks ask of it within a limit of a second.
#[tokio::test]
#[ignore = "it is explored by another test"]
async fn blocking_work_in_time() {
    let mut tasks = JoinSet::new();
    for number in 0..3u32 {
        tasks.spawn(async move {
            let work = spawn_blocking(move || number * 2);
            timeout(ms(1000), work).await.unwrap().unwrap()
        });
    }
    let mut sum = 0;
    while let Some(task) = tasks.join_next().await {
        sum += task.unwrap();
    }
    assert_eq!(sum, 6);
}

/// Stops gracefully: what is under way has two seconds to end.
#[tokio::test]
#[ignore = "it is explored by another test"]
async fn ends_in_its_grace() {
    let (stop, stopped) = oneshot::channel::<()>();
    let (jobs, mut taken) = mpsc::channel(8);
    let worker = spawn(async move {
        let mut done = 0;
        while let Some(job) = taken.recv().await {
            yield_now().await;
            done += job;
        }
        done
    });
    let boss = spawn(async move {
        for _ in 0..4 {
            jobs.send(1).await.unwrap();
        }
        stopped.await.unwrap();
        drop(jobs);
    });
    stop.send(()).unwrap();
    boss.await.unwrap();
    assert_eq!(timeout(ms(2000), worker).await.unwrap().unwrap(), 4);
}
