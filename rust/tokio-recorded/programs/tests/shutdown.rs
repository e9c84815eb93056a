//! Servers that shut down gracefully: in the form of mini-redis, in that of axum's `serve`, and by
//! hyper's server itself.

use std::convert::Infallible;
use std::future::Future;
use std::net::SocketAddr;
use std::sync::Arc;
use tokio::io::{AsyncBufReadExt, AsyncWriteExt, BufStream};
use tokio::net::{TcpListener, TcpStream};
use tokio::sync::{broadcast, mpsc, oneshot, watch, Notify, Semaphore};
use yovanelum::Recorder;

/// Returns how many entries of the recorder end so.
fn entries(recorder: &Recorder, end: &str) -> usize {
    let journal = recorder.journal().unwrap();
    journal.lines().filter(|line| line.ends_with(end)).count()
}

async fn listen() -> (TcpListener, SocketAddr) {
    let listener = TcpListener::bind("127.0.0.1:0").await.unwrap();
    let address = listener.local_addr().unwrap();
    (listener, address)
}

async fn say(stream: &mut BufStream<TcpStream>, text: &str) {
    stream.write_all(text.as_bytes()).await.unwrap();
    stream.flush().await.unwrap();
}

/// Reads a line, which is empty at the end of the stream.
async fn heard(stream: &mut BufStream<TcpStream>) -> String {
    let mut line = String::new();
    stream.read_line(&mut line).await.unwrap();
    line
}

/// As in mini-redis: whether the server shuts down, which a connection asks between its commands.
struct Shutdown {
    is_shutdown: bool,
    notify: broadcast::Receiver<()>,
}

impl Shutdown {
    async fn recv(&mut self) {
        if self.is_shutdown {
            return;
        }
        // No value is ever sent: the channel closes.
        let _ = self.notify.recv().await;
        self.is_shutdown = true;
    }
}

struct Handler {
    stream: BufStream<TcpStream>,
    shutdown: Shutdown,
    // It is dropped with the handler, which the server waits for.
    _shutdown_complete: mpsc::Sender<()>,
}

impl Handler {
    async fn run(&mut self) {
        while !self.shutdown.is_shutdown {
            let line = tokio::select! {
                line = heard(&mut self.stream) => line,
                () = self.shutdown.recv() => return,
            };
            if line.is_empty() {
                return;
            }
            say(&mut self.stream, &line).await;
        }
    }
}

struct Listener {
    listener: TcpListener,
    limit_connections: Arc<Semaphore>,
    notify_shutdown: broadcast::Sender<()>,
    shutdown_complete_tx: mpsc::Sender<()>,
}

impl Listener {
    async fn run(&mut self) {
        loop {
            let permit = self.limit_connections.clone().acquire_owned().await;
            let (stream, _) = self.listener.accept().await.unwrap();
            let mut handler = Handler {
                stream: BufStream::new(stream),
                shutdown: Shutdown {
                    is_shutdown: false,
                    notify: self.notify_shutdown.subscribe(),
                },
                _shutdown_complete: self.shutdown_complete_tx.clone(),
            };
            tokio::spawn(async move {
                handler.run().await;
                drop(permit);
            });
        }
    }
}

/// The server of mini-redis: returns when each connection has ended.
async fn run_mini_redis(listener: TcpListener, shutdown: impl Future) {
    let (notify_shutdown, _) = broadcast::channel(1);
    let (shutdown_complete_tx, mut shutdown_complete_rx) = mpsc::channel(1);
    let mut server = Listener {
        listener,
        limit_connections: Arc::new(Semaphore::new(250)),
        notify_shutdown,
        shutdown_complete_tx,
    };
    tokio::select! {
        () = server.run() => {}
        _ = shutdown => {}
    }
    let Listener {
        shutdown_complete_tx,
        notify_shutdown,
        ..
    } = server;
    drop(notify_shutdown);
    drop(shutdown_complete_tx);
    assert_eq!(shutdown_complete_rx.recv().await, None);
}

#[tokio::test]
async fn mini_redis_ends_each_connection() {
    let recorder = Recorder::for_test("mini_redis_ends_each_connection");
    let (listener, address) = listen().await;
    let (stop, stopped) = oneshot::channel::<()>();
    let server = tokio::spawn(run_mini_redis(listener, stopped));
    let mut clients = vec![];
    for name in ["first\n", "second\n", "third\n"] {
        let mut client = BufStream::new(TcpStream::connect(address).await.unwrap());
        say(&mut client, name).await;
        assert_eq!(heard(&mut client).await, name);
        clients.push(client);
    }
    stop.send(()).unwrap();
    server.await.unwrap();
    for mut client in clients {
        assert_eq!(heard(&mut client).await, "");
    }
    assert_eq!(entries(&recorder, " = closed"), 3);
}

/// A connection of the server below, which answers `work` when it is let. It ends between two
/// requests once the server shuts down.
struct Connection {
    stream: BufStream<TcpStream>,
    signal_tx: Arc<watch::Sender<()>>,
    is_working: Arc<Notify>,
    may_answer: Arc<Notify>,
}

impl Connection {
    async fn serve(&mut self) {
        loop {
            let line = tokio::select! {
                line = heard(&mut self.stream) => line,
                () = self.signal_tx.closed() => return,
            };
            if line.is_empty() {
                return;
            }
            if line == "work\n" {
                self.is_working.notify_one();
                self.may_answer.notified().await;
            }
            say(&mut self.stream, "done\n").await;
        }
    }
}

/// The server of axum's `serve(..).with_graceful_shutdown(signal)`: one watch says that it shuts
/// down, the other that connections are open.
async fn run_axum(
    listener: TcpListener,
    signal: impl Future<Output = ()> + Send + 'static,
    is_working: Arc<Notify>,
    may_answer: Arc<Notify>,
) {
    let (signal_tx, signal_rx) = watch::channel(());
    let signal_tx = Arc::new(signal_tx);
    tokio::spawn(async move {
        signal.await;
        drop(signal_rx);
    });
    let (close_tx, close_rx) = watch::channel(());
    loop {
        let (stream, _) = tokio::select! {
            accepted = listener.accept() => accepted.unwrap(),
            () = signal_tx.closed() => break,
        };
        let mut connection = Connection {
            stream: BufStream::new(stream),
            signal_tx: Arc::clone(&signal_tx),
            is_working: is_working.clone(),
            may_answer: may_answer.clone(),
        };
        let close_rx = close_rx.clone();
        tokio::spawn(async move {
            connection.serve().await;
            drop(close_rx);
        });
    }
    drop(close_rx);
    drop(listener);
    close_tx.closed().await;
}

#[tokio::test]
async fn axum_finishes_the_request_that_it_works_on() {
    let recorder = Recorder::for_test("axum_finishes_the_request_that_it_works_on");
    let (listener, address) = listen().await;
    let (stop, stopped) = oneshot::channel::<()>();
    let (is_working, may_answer) = (Arc::new(Notify::new()), Arc::new(Notify::new()));
    let signal = async { stopped.await.unwrap() };
    let server = run_axum(listener, signal, is_working.clone(), may_answer.clone());
    let server = tokio::spawn(server);
    let mut idle = BufStream::new(TcpStream::connect(address).await.unwrap());
    say(&mut idle, "ping\n").await;
    assert_eq!(heard(&mut idle).await, "done\n");
    let mut busy = BufStream::new(TcpStream::connect(address).await.unwrap());
    say(&mut busy, "work\n").await;
    is_working.notified().await;
    stop.send(()).unwrap();
    // The idle connection ends, and the server waits for the other.
    assert_eq!(heard(&mut idle).await, "");
    assert!(!server.is_finished());
    may_answer.notify_one();
    assert_eq!(heard(&mut busy).await, "done\n");
    assert_eq!(heard(&mut busy).await, "");
    server.await.unwrap();
    assert!(TcpStream::connect(address).await.is_err());
    // The loop and both connections waited for the first watch, and the server for the second.
    assert_eq!(entries(&recorder, " 0 closed 0 = done"), 3);
    assert_eq!(entries(&recorder, " 1 closed 0 = done"), 1);
}

#[cfg(feature = "hyper")]
#[tokio::test]
async fn hyper_finishes_the_request_that_it_works_on() {
    use hyper::service::{make_service_fn, service_fn};
    use hyper::{Body, Client, Response, Server};

    let recorder = Recorder::for_test("hyper_finishes_the_request_that_it_works_on");
    let (is_working, may_answer) = (Arc::new(Notify::new()), Arc::new(Notify::new()));
    let (stop, stopped) = oneshot::channel::<()>();
    let notifies = (is_working.clone(), may_answer.clone());
    let services = make_service_fn(move |_| {
        let notifies = notifies.clone();
        let service = service_fn(move |_request| {
            let (is_working, may_answer) = notifies.clone();
            async move {
                is_working.notify_one();
                may_answer.notified().await;
                Ok::<_, Infallible>(Response::new(Body::from("done")))
            }
        });
        std::future::ready(Ok::<_, Infallible>(service))
    });
    let server = Server::bind(&([127, 0, 0, 1], 0).into()).serve(services);
    let uri: hyper::Uri = format!("http://{}/", server.local_addr()).parse().unwrap();
    let signal = async { stopped.await.unwrap() };
    let server = tokio::spawn(server.with_graceful_shutdown(signal));
    let request = tokio::spawn(Client::new().get(uri.clone()));
    is_working.notified().await;
    stop.send(()).unwrap();
    // No new connection is served, and the server waits for the one that it has.
    assert!(Client::new().get(uri).await.is_err());
    assert!(!server.is_finished());
    may_answer.notify_one();
    let response = request.await.unwrap().unwrap();
    let body = hyper::body::to_bytes(response.into_body()).await.unwrap();
    assert_eq!(body, "done");
    server.await.unwrap().unwrap();
    // The server announced its end on a watch, and waited until no connection had a receiver.
    assert_eq!(entries(&recorder, " send 0 1 = stored"), 1);
    assert_eq!(entries(&recorder, " closed 0 = done"), 1);
}
