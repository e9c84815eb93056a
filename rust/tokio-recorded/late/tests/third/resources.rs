//! What a receiver waits for: locks, permits, other channels, sockets, pipes, programs and timers.

use late::events::{Signals, audited, fed, next};
use std::process::Stdio;
use std::sync::Arc;
use std::time::Duration;
use tokio::io::{AsyncReadExt, DuplexStream};
use tokio::net::{TcpListener, TcpStream, UnixStream};
use tokio::sync::{Mutex, Notify, RwLock, Semaphore};
use tokio::sync::{broadcast, broadcast::error::RecvError, mpsc, oneshot, watch};
use yovanelum::{Recorder, named};

/// A reload writes the catalogue, and then reads it beside others.
#[tokio::test(flavor = "multi_thread", worker_threads = 2)]
async fn catalogue_reloaded() {
    let _recorder = Recorder::for_test("catalogue_reloaded");
    let (orders, mut rx) = broadcast::channel(2);
    let [signals, own, changed] = Signals::shared();
    let catalogue = Arc::new(RwLock::new(vec![1]));
    let mut written = catalogue.clone().write_owned().await;
    let shop = tokio::spawn(named("shop", async move {
        while next(&mut rx, &own).await.is_some() {
            own.is_busy_after_poll();
            let catalogue = catalogue.read().await; // @catalogue_read
            assert_eq!(catalogue.len(), 2);
        }
    }));
    tokio::spawn(named("reload", async move {
        changed.overwritten().await;
        written.push(2);
        let read = written.downgrade(); // @catalogue_downgraded
        tokio::task::yield_now().await;
        drop(read);
    }));
    fed(orders, shop, &signals).await;
}

/// A tracker asks a sensor by a socket of Unix, which has nothing to read yet.
#[tokio::test]
async fn sensor_readable() {
    let _recorder = Recorder::for_test("sensor_readable");
    let (orders, mut rx) = broadcast::channel(2);
    let [signals, own, changed] = Signals::shared();
    let (near, far) = UnixStream::pair().unwrap();
    let tracker = tokio::spawn(named("tracker", async move {
        while next(&mut rx, &own).await.is_some() {
            own.is_busy_after_poll();
            near.readable().await.unwrap(); // @sensor_readable
            let mut value = [0];
            assert_eq!(near.try_read(&mut value).unwrap(), 1);
        }
    }));
    tokio::spawn(named("sensor", async move {
        changed.overwritten().await;
        far.writable().await.unwrap();
        assert_eq!(far.try_write(b"7").unwrap(), 1);
    }));
    fed(orders, tracker, &signals).await;
}

/// A teller serves the next customer before it looks at orders again.
#[tokio::test(flavor = "multi_thread", worker_threads = 1)]
async fn customer_served() {
    let _recorder = Recorder::for_test("customer_served");
    let listener = TcpListener::bind("127.0.0.1:0").await.unwrap();
    let address = listener.local_addr().unwrap();
    let (orders, mut rx) = broadcast::channel(2);
    let [signals, own, changed] = Signals::shared();
    let teller = tokio::spawn(named("teller", async move {
        while next(&mut rx, &own).await.is_some() {
            own.is_busy_after_poll();
            let customer = listener.accept().await; // @customer_accepted
            drop(customer.unwrap());
        }
    }));
    tokio::spawn(named("customer", async move {
        changed.overwritten().await;
        let _stream = TcpStream::connect(address).await.unwrap();
    }));
    fed(orders, teller, &signals).await;
}

/// An archive copies what a camera writes, until that ends.
#[tokio::test]
async fn tape_copied() {
    let _recorder = Recorder::for_test("tape_copied");
    let (orders, mut rx) = broadcast::channel(2);
    let [signals, own, changed] = Signals::shared();
    let (mut reader, writer) = tokio::io::duplex(64);
    let archive = tokio::spawn(named("archive", async move {
        while next(&mut rx, &own).await.is_some() {
            own.is_busy_after_poll();
            let mut tape = vec![];
            let bytes = tokio::io::copy(&mut reader, &mut tape).await; // @tape_copied
            assert_eq!(bytes.unwrap(), 0);
        }
    }));
    tokio::spawn(named("camera", async move {
        changed.overwritten().await;
        drop(writer); // @tape_ended
    }));
    fed(orders, archive, &signals).await;
}

/// A studio goes on once nobody watches its frames any more.
#[tokio::test(flavor = "multi_thread", worker_threads = 2)]
async fn viewers_leave() {
    let _recorder = Recorder::for_test("viewers_leave");
    let (orders, mut rx) = broadcast::channel(2);
    let (frames, watched) = watch::channel(0);
    let [signals, own, changed] = Signals::shared();
    let studio = tokio::spawn(named("studio", async move {
        while next(&mut rx, &own).await.is_some() {
            own.is_busy_after_poll();
            frames.closed().await; // @viewers_awaited
        }
    }));
    tokio::spawn(named("viewer", async move {
        changed.overwritten().await;
        drop(watched); // @viewer_left
    }));
    fed(orders, studio, &signals).await;
}

/// An engine waits for a command, and its pilot leaves without one.
#[tokio::test]
async fn pilot_leaves() {
    let _recorder = Recorder::for_test("pilot_leaves");
    let (orders, mut rx) = broadcast::channel(2);
    let (control, mut commands) = broadcast::channel::<u32>(4);
    let [signals, own, changed] = Signals::shared();
    let engine = tokio::spawn(named("engine", async move {
        while next(&mut rx, &own).await.is_some() {
            own.is_busy_after_poll();
            let command = commands.recv().await; // @command_awaited
            assert_eq!(command, Err(RecvError::Closed));
        }
    }));
    tokio::spawn(named("pilot", async move {
        changed.overwritten().await;
        drop(control); // @pilot_left
    }));
    fed(orders, engine, &signals).await;
}

/// An operator stays on the line until the caller hangs up.
#[tokio::test(flavor = "multi_thread", worker_threads = 1)]
async fn caller_hangs_up() {
    let _recorder = Recorder::for_test("caller_hangs_up");
    let (orders, mut rx) = broadcast::channel(2);
    let [signals, own, changed] = Signals::shared();
    let (mut line, call) = oneshot::channel::<u32>();
    let operator = tokio::spawn(named("operator", async move {
        while next(&mut rx, &own).await.is_some() {
            own.is_busy_after_poll();
            line.closed().await; // @line_held
        }
    }));
    tokio::spawn(named("caller", async move {
        changed.overwritten().await;
        drop(call); // @caller_left
    }));
    fed(orders, operator, &signals).await;
}

/// A studio waits for a program that converts, which ends when its input does.
#[tokio::test]
async fn converter_exits() {
    let _recorder = Recorder::for_test("converter_exits");
    let (orders, mut rx) = broadcast::channel(2);
    let [signals, own, changed] = Signals::shared();
    let mut command = tokio::process::Command::new("cat");
    let command = command.stdin(Stdio::piped()).stdout(Stdio::null());
    let mut converter = command.spawn().unwrap();
    let input = converter.stdin.take().unwrap();
    let studio = tokio::spawn(named("studio", async move {
        while next(&mut rx, &own).await.is_some() {
            own.is_busy_after_poll();
            let status = converter.wait().await; // @converter_awaited
            assert!(status.unwrap().success());
        }
    }));
    tokio::spawn(named("editor", async move {
        changed.overwritten().await;
        drop(input);
    }));
    fed(orders, studio, &signals).await;
}

/// A spooler opens a named pipe, which takes until the printer has it open too.
#[tokio::test]
async fn printer_opened() {
    let _recorder = Recorder::for_test("printer_opened");
    let pipe = std::env::temp_dir().join(format!("late-printer-{}", std::process::id()));
    let made = std::process::Command::new("mkfifo").arg(&pipe).status();
    assert!(made.unwrap().success());
    let (orders, mut rx) = broadcast::channel(2);
    let [signals, own, changed] = Signals::shared();
    let device = pipe.clone();
    let spooler = tokio::spawn(named("spooler", async move {
        let mut options = tokio::fs::OpenOptions::new();
        options.write(true);
        while next(&mut rx, &own).await.is_some() {
            own.is_busy_after_poll();
            let opened = options.open(&pipe).await; // @printer_opened
            assert!(opened.is_ok());
            std::fs::remove_file(&pipe).unwrap();
        }
    }));
    tokio::spawn(named("printer", async move {
        changed.overwritten().await;
        drop(std::fs::File::open(&device).unwrap());
    }));
    fed(orders, spooler, &signals).await;
}

/// Takes rows from a peer, and has the table all the while.
async fn import(
    table: Arc<Mutex<Vec<u8>>>,
    mut peer: DuplexStream,
    has_table: oneshot::Sender<()>,
) {
    let mut table = table.lock().await;
    has_table.send(()).unwrap();
    while let Ok(row) = peer.read_u8().await {
        table.push(row);
    }
} // @table_released

/// The audit needs the table that an import has, which reads from a pipe.
#[tokio::test(flavor = "multi_thread", worker_threads = 2)]
async fn rows_imported() {
    let _recorder = Recorder::for_test("rows_imported");
    let (orders, mut rx) = broadcast::channel(2);
    let [signals, own, changed] = Signals::shared();
    let table = Arc::new(Mutex::new(vec![]));
    let (peer, upload) = tokio::io::duplex(64);
    let (has_table, begun) = oneshot::channel();
    tokio::spawn(named("import", import(table.clone(), peer, has_table)));
    begun.await.unwrap();
    let audit = tokio::spawn(named("audit", async move {
        while next(&mut rx, &own).await.is_some() {
            own.is_busy_after_poll();
            let table = table.lock().await; // @table_locked
            assert!(table.is_empty());
        }
    }));
    tokio::spawn(named("upload", async move {
        changed.overwritten().await;
        drop(upload);
    }));
    fed(orders, audit, &signals).await;
}

/// Nobody takes mails, and the queue is full: each is given up after a while. The clock is paused.
#[tokio::test(start_paused = true)]
async fn mail_given_up() {
    let _recorder = Recorder::for_test("mail_given_up");
    let (orders, mut rx) = broadcast::channel(2);
    let signals = Signals::new();
    let own = signals.clone();
    let (mails, _untaken) = mpsc::channel(1);
    mails.try_send(99).unwrap();
    let mailer = tokio::spawn(named("mailer", async move {
        while let Some(id) = next(&mut rx, &own).await {
            let sent = tokio::time::timeout(Duration::from_millis(260), mails.send(id));
            assert!(sent.await.is_err()); // @mail_timed
        }
    }));
    tokio::spawn(named("feed", async move {
        for id in 0..10 {
            let _ = orders.send(id);
            tokio::time::sleep(Duration::from_millis(50)).await;
        }
    }));
    audited(mailer, &signals).await;
}

/// A dispatcher is asked to wait until all jobs have ended, in a branch beside its orders.
#[tokio::test]
async fn jobs_drained() {
    let _recorder = Recorder::for_test("jobs_drained");
    let (orders, mut rx) = broadcast::channel(2);
    let [signals, own, changed] = Signals::shared();
    let pool = Arc::new(Semaphore::new(3));
    let permit = pool.clone().acquire_owned().await.unwrap();
    let (drains, mut drained) = mpsc::channel(1);
    let begun = Arc::new(Notify::new());
    let has_begun = begun.clone();
    let dispatcher = tokio::spawn(named("dispatcher", async move {
        loop {
            tokio::select! {
                order = next(&mut rx, &own) => match order {
                    Some(_) => begun.notify_one(),
                    None => return,
                },
                Some(permits) = drained.recv() => {
                    own.is_busy_after_poll();
                    let all = pool.acquire_many(permits).await; // @jobs_drained
                    assert!(all.is_ok());
                }
            }
        }
    }));
    tokio::spawn(named("job", async move {
        changed.overwritten().await;
        drop(permit); // @job_ended
    }));
    tokio::spawn(named("operator", async move {
        has_begun.notified().await;
        drains.send(3).await.unwrap();
    }));
    fed(orders, dispatcher, &signals).await;
}
