//! Bugs of order in programs that have neither `broadcast` nor `watch`. Each passes where its
//! runtime alone says who goes on, and says in which order it fails.

use std::sync::Arc;
use tokio::sync::{mpsc, oneshot, Mutex, Notify, OnceCell, RwLock, Semaphore};
use tokio::task::{spawn, yield_now, JoinSet};

/// Goes round this many times.
async fn rounds(count: usize) {
    for _ in 0..count {
        yield_now().await;
    }
}

/// `Notify::notify_waiters` wakes those alone that wait. It hangs where the boss is polled three
/// times before the worker is polled twice.
#[tokio::test]
#[ignore = "it is explored by another test"]
async fn a_notice_is_missed() {
    let bell = Arc::new(Notify::new());
    let of_worker = bell.clone();
    let worker = spawn(async move {
        rounds(1).await;
        of_worker.notified().await;
    });
    let boss = spawn(async move {
        rounds(2).await;
        bell.notify_waiters();
    });
    boss.await.unwrap();
    worker.await.unwrap();
}

/// Two workers fetch what neither has found in the cache. It fails where the second one looks
/// before the server has answered the first one.
#[tokio::test]
#[ignore = "it is explored by another test"]
async fn fetched_twice() {
    let (asks, mut asked) = mpsc::channel::<oneshot::Sender<u32>>(4);
    let server = spawn(async move {
        let mut count = 0;
        while let Some(reply) = asked.recv().await {
            count += 1;
            let _ = reply.send(7);
        }
        count
    });
    let cache = Arc::new(Mutex::new(None));
    let fetch = |cache: Arc<Mutex<Option<u32>>>, asks: mpsc::Sender<_>, late: usize| async move {
        rounds(late).await;
        let found = *cache.lock().await;
        if found.is_none() {
            let (reply, answer) = oneshot::channel();
            asks.send(reply).await.unwrap();
            let answer = answer.await.unwrap();
            *cache.lock().await = Some(answer);
        }
    };
    let first = spawn(fetch(cache.clone(), asks.clone(), 0));
    let second = spawn(fetch(cache, asks, 6));
    first.await.unwrap();
    second.await.unwrap();
    assert_eq!(server.await.unwrap(), 1);
}

/// A job is dropped where the only permit is taken. It fails where the second job is polled while
/// the first one has gone round once.
#[tokio::test]
#[ignore = "it is explored by another test"]
async fn dropped_when_busy() {
    let permits = Arc::new(Semaphore::new(1));
    let job = |permits: Arc<Semaphore>, late: usize| async move {
        rounds(late).await;
        let Ok(_permit) = permits.try_acquire() else {
            return false;
        };
        rounds(1).await;
        true
    };
    let first = spawn(job(permits.clone(), 0));
    let second = spawn(job(permits, 4));
    assert!(first.await.unwrap());
    assert!(second.await.unwrap());
}

/// A worker prefers the stop to its jobs. It fails where it isn't polled between the job and the
/// stop.
#[tokio::test]
#[ignore = "it is explored by another test"]
async fn stops_before_its_job() {
    let (jobs, mut taken) = mpsc::channel(4);
    let (stop, mut stopped) = oneshot::channel();
    let worker = spawn(async move {
        let mut done = 0;
        loop {
            tokio::select! {
                biased;
                _ = &mut stopped => return done,
                Some(job) = taken.recv() => done += job,
            }
        }
    });
    let boss = spawn(async move {
        jobs.send(1).await.unwrap();
        rounds(2).await;
        stop.send(()).unwrap();
        jobs
    });
    let _jobs = boss.await.unwrap();
    assert_eq!(worker.await.unwrap(), 1);
}

/// The first answer is taken for that of the leader. It fails where the follower is polled first.
#[tokio::test]
#[ignore = "it is explored by another test"]
async fn answer_of_the_first() {
    let mut set = JoinSet::new();
    set.spawn(async { "leader" });
    set.spawn(async {
        rounds(1).await;
        "follower"
    });
    let first = set.join_next().await.unwrap().unwrap();
    set.shutdown().await;
    assert_eq!(first, "leader");
}

/// Half of a frame is lost where a tick cancels its reader. It fails where the reader is polled
/// when the third byte is there alone, and again when the tick is.
#[tokio::test]
#[ignore = "it is explored by another test"]
async fn half_a_frame() {
    let (bytes, mut read) = mpsc::channel(4);
    let (ticks, mut ticked) = mpsc::channel::<()>(4);
    let reader = spawn(async move {
        let mut frames = Vec::new();
        while frames.len() < 2 {
            let frame = async {
                let first = read.recv().await?;
                let second = read.recv().await?;
                Some((first, second))
            };
            tokio::select! {
                biased;
                frame = frame => match frame {
                    Some(frame) => frames.push(frame),
                    None => break,
                },
                Some(()) = ticked.recv() => {}
            }
        }
        frames
    });
    let writer = spawn(async move {
        for byte in 0..4 {
            bytes.send(byte).await.unwrap();
            if byte == 2 {
                rounds(1).await;
            }
        }
    });
    let clock = spawn(async move {
        rounds(8).await;
        let _ = ticks.send(()).await;
        ticks
    });
    writer.await.unwrap();
    let _ticks = clock.await.unwrap();
    assert_eq!(reader.await.unwrap(), [(0, 1), (2, 3)]);
}

/// A task is aborted once it says that it has begun. It fails where the one who aborts it is polled
/// before it has gone round twice.
#[tokio::test]
#[ignore = "it is explored by another test"]
async fn aborted_in_between() {
    let (from, to) = (Arc::new(Mutex::new(10)), Arc::new(Mutex::new(0)));
    let begun = Arc::new(Notify::new());
    let (of_from, of_to, of_task) = (from.clone(), to.clone(), begun.clone());
    let transfer = spawn(async move {
        *of_from.lock().await -= 5;
        of_task.notify_one();
        rounds(2).await;
        *of_to.lock().await += 5;
    });
    let stopper = spawn(async move {
        begun.notified().await;
        rounds(3).await;
        transfer.abort();
        let _ = transfer.await;
    });
    stopper.await.unwrap();
    let sum = *from.lock().await + *to.lock().await;
    assert_eq!(sum, 10);
}

/// A writer tells of its change before the change is whole. It fails where the reader is polled
/// before the writer has gone round once more.
#[tokio::test]
#[ignore = "it is explored by another test"]
async fn told_before_it_is_whole() {
    let (low, high) = (Arc::new(RwLock::new(0)), Arc::new(RwLock::new(10)));
    let (tell, told) = oneshot::channel();
    let (of_low, of_high) = (low.clone(), high.clone());
    let writer = spawn(async move {
        *of_low.write().await = 20;
        tell.send(()).unwrap();
        rounds(1).await;
        *of_high.write().await = 30;
    });
    let reader = spawn(async move {
        told.await.unwrap();
        rounds(2).await;
        (*low.read().await, *high.read().await)
    });
    writer.await.unwrap();
    assert_eq!(reader.await.unwrap(), (20, 30));
}

/// A server answers whoever has asked, and one has gone. It panics where the client is aborted
/// before the server is polled a second time.
#[tokio::test]
#[ignore = "it is explored by another test"]
async fn answers_who_is_gone() {
    let (asks, mut asked) = mpsc::channel::<oneshot::Sender<u32>>(1);
    let server = spawn(async move {
        let reply = asked.recv().await.unwrap();
        reply.send(7).unwrap();
    });
    let client = spawn(async move {
        let (reply, answer) = oneshot::channel();
        asks.send(reply).await.unwrap();
        rounds(3).await;
        answer.await
    });
    let stopper = spawn(async move {
        rounds(4).await;
        client.abort();
    });
    stopper.await.unwrap();
    server.await.unwrap();
}

/// Events have their numbers before they are sent. It fails where the second producer takes its
/// number and sends while the first one goes round.
#[tokio::test]
#[ignore = "it is explored by another test"]
async fn numbers_out_of_order() {
    let (events, mut read) = mpsc::unbounded_channel();
    let next = Arc::new(Mutex::new(0));
    let producer = |late: usize| {
        let (events, next) = (events.clone(), next.clone());
        async move {
            rounds(late).await;
            let number = {
                let mut next = next.lock().await;
                *next += 1;
                *next
            };
            rounds(1).await;
            events.send(number).unwrap();
        }
    };
    let (first, second) = (spawn(producer(0)), spawn(producer(3)));
    drop(events);
    first.await.unwrap();
    second.await.unwrap();
    let mut got = Vec::new();
    while let Some(number) = read.recv().await {
        got.push(number);
    }
    assert_eq!(got, [1, 2]);
}

/// A cell is set by whoever finds it empty. It panics where both have looked before one has set it.
#[tokio::test]
#[ignore = "it is explored by another test"]
async fn set_twice() {
    let cell = Arc::new(OnceCell::new());
    let set = |late: usize| {
        let cell = cell.clone();
        async move {
            rounds(late).await;
            if cell.get().is_none() {
                rounds(1).await;
                cell.set(late).unwrap();
            }
        }
    };
    let (first, second) = (spawn(set(0)), spawn(set(4)));
    first.await.unwrap();
    second.await.unwrap();
}

/// A session is told to stop if it is in the list. It hangs where the sessions are told while the
/// acceptor goes round between accepting and listing one.
#[tokio::test]
#[ignore = "it is explored by another test"]
async fn a_session_misses_the_stop() {
    let sessions = Arc::new(Mutex::new(Vec::new()));
    let of_acceptor = sessions.clone();
    let acceptor = spawn(async move {
        let (stop, stopped) = mpsc::channel::<()>(1);
        rounds(1).await;
        of_acceptor.lock().await.push(stop.clone());
        (stop, stopped)
    });
    let stopper = spawn(async move {
        rounds(3).await;
        for session in sessions.lock().await.iter() {
            session.send(()).await.unwrap();
        }
    });
    stopper.await.unwrap();
    let (_stop, mut stopped) = acceptor.await.unwrap();
    stopped.recv().await.unwrap();
}
