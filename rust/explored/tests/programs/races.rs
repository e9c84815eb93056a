//! Races on what tokio has beside the two channels, and of polls alone. None has a recorded call.

use super::{ended, on_one_thread};
use std::future::Future;
use std::sync::Arc;
use std::sync::atomic::{AtomicBool, AtomicU32, Ordering};
use tokio::sync::{Mutex, Notify, RwLock, Semaphore, mpsc, oneshot};
use tokio::task::{JoinHandle, yield_now};
use yovanelum::named;

/// Spawns a task with a name.
fn spawn<R: Send + 'static>(
    name: &str,
    future: impl Future<Output = R> + Send + 'static,
) -> JoinHandle<R> {
    tokio::spawn(named(name, future))
}

/// Lets the other tasks go on some times.
async fn yields(times: usize) {
    for _ in 0..times {
        yield_now().await;
    }
}

/// Two clerks write to a book under a lock. The first is taken to be Ann.
pub fn first_to_lock() {
    on_one_thread(async {
        let book = Arc::new(Mutex::new(vec![]));
        let clerk = |name: &'static str, rounds| {
            let book = book.clone();
            spawn(name, async move {
                yields(rounds).await;
                let mut book = book.lock().await;
                yield_now().await;
                book.push(name);
            })
        };
        let clerks = [clerk("ann", 0), clerk("bob", 2)];
        for clerk in clerks {
            ended(clerk).await;
        }
        assert_eq!(*book.lock().await, ["ann", "bob"]);
    });
}

/// Two clerks read a sum under a lock, and add to it under another one.
pub fn added_to_an_old_sum() {
    on_one_thread(async {
        let sum = Arc::new(RwLock::new(0));
        let clerk = |name, rounds| {
            let sum = sum.clone();
            spawn(name, async move {
                yields(rounds).await;
                let before = *sum.read().await;
                yield_now().await;
                *sum.write().await = before + 1;
            })
        };
        let clerks = [clerk("ann", 0), clerk("bob", 4)];
        for clerk in clerks {
            ended(clerk).await;
        }
        assert_eq!(*sum.read().await, 2);
    });
}

/// A bell rings for those who wait. The guest may not wait yet.
pub fn rings_too_early() {
    on_one_thread(async {
        let (bell, rings) = (Arc::new(Notify::new()), Arc::new(AtomicBool::new(false)));
        let (of_guest, has_rung) = (bell.clone(), rings.clone());
        let guest = spawn("guest", async move {
            if !has_rung.load(Ordering::Relaxed) {
                yield_now().await;
                of_guest.notified().await;
            }
        });
        let waiter = spawn("waiter", async move {
            yields(4).await;
            rings.store(true, Ordering::Relaxed);
            bell.notify_waiters();
        });
        ended(waiter).await;
        ended(guest).await;
    });
}

/// A desk takes the permit if it is there, while another task has it for a while.
pub fn no_permit_left() {
    on_one_thread(async {
        let permits = Arc::new(Semaphore::new(1));
        let of_desk = permits.clone();
        let holder = spawn("holder", async move {
            let _permit = permits.acquire().await.unwrap();
            yields(2).await;
        });
        let desk = spawn("desk", async move {
            yields(3).await;
            drop(of_desk.try_acquire().expect("the permit is left"));
        });
        ended(holder).await;
        ended(desk).await;
    });
}

/// Two who take two permits each, one after the other, may have one each.
pub fn one_permit_each() {
    on_one_thread(async {
        let permits = Arc::new(Semaphore::new(2));
        let taker = |name, rounds| {
            let permits = permits.clone();
            spawn(name, async move {
                yields(rounds).await;
                let first = permits.acquire().await.unwrap();
                yield_now().await;
                let second = permits.acquire().await.unwrap();
                drop((first, second));
            })
        };
        let takers = [taker("ann", 0), taker("bob", 4)];
        for taker in takers {
            ended(taker).await;
        }
    });
}

/// Orders come from two shops. The first is taken to be the north's.
pub fn first_message() {
    on_one_thread(async {
        let (orders, mut inbox) = mpsc::channel(4);
        let shop = |name: &'static str, rounds| {
            let orders = orders.clone();
            spawn(name, async move {
                yields(rounds).await;
                orders.send(name).await.unwrap();
            })
        };
        let shops = [shop("north", 0), shop("south", 3)];
        drop(orders);
        let clerk = spawn("clerk", async move {
            let first = inbox.recv().await;
            while inbox.recv().await.is_some() {}
            first
        });
        for shop in shops {
            ended(shop).await;
        }
        assert_eq!(ended(clerk).await, Some("north"));
    });
}

/// A clerk looks once whether an order has come.
pub fn looks_once() {
    on_one_thread(async {
        let (orders, mut inbox) = mpsc::channel(4);
        let shop = spawn("shop", async move {
            yield_now().await;
            let _ = orders.send(71).await;
            orders
        });
        let clerk = spawn("clerk", async move {
            yields(5).await;
            inbox.try_recv()
        });
        let _orders = ended(shop).await;
        assert_eq!(ended(clerk).await, Ok(71));
    });
}

/// A client is ready to get an answer for a while only.
pub fn answers_too_late() {
    on_one_thread(async {
        let (answer, answered) = oneshot::channel();
        let client = spawn("client", async move {
            yields(4).await;
            drop(answered);
        });
        let server = spawn("server", async move {
            yield_now().await;
            answer.send(71).expect("the client still listens");
        });
        ended(server).await;
        ended(client).await;
    });
}

/// A client takes it for granted that the server's task has begun.
pub fn not_listening_yet() {
    on_one_thread(async {
        let listens = Arc::new(AtomicBool::new(false));
        let of_client = listens.clone();
        let server = spawn("server", async move {
            listens.store(true, Ordering::Relaxed);
            yield_now().await;
        });
        let client = spawn("client", async move {
            yields(3).await;
            assert!(of_client.load(Ordering::Relaxed), "it is not listening yet");
        });
        ended(client).await;
        ended(server).await;
    });
}

/// A worker is stopped by a flag, and the job that comes with it is lost.
pub fn stopped_before_its_job() {
    on_one_thread(async {
        let (jobs, mut inbox) = mpsc::unbounded_channel();
        let (stops, done) = (
            Arc::new(AtomicBool::new(false)),
            Arc::new(AtomicU32::new(0)),
        );
        let (is_stopped, of_worker) = (stops.clone(), done.clone());
        let worker = spawn("worker", async move {
            while let Some(job) = inbox.recv().await {
                if is_stopped.load(Ordering::Relaxed) {
                    return;
                }
                of_worker.fetch_add(job, Ordering::Relaxed);
            }
        });
        let chief = spawn("chief", async move {
            for _ in 0..2 {
                jobs.send(1).unwrap();
                yields(3).await;
            }
            stops.store(true, Ordering::Relaxed);
        });
        ended(chief).await;
        ended(worker).await;
        assert_eq!(done.load(Ordering::Relaxed), 2);
    });
}
