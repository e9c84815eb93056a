//! Servers over TCP.

use super::{ended, joined, on_one_thread, on_two_workers, spawn, work};
use std::io::{Read, Write};
use std::net;
use tokio::io::{AsyncBufReadExt, AsyncWriteExt, BufReader};
use tokio::net::{TcpListener, TcpStream};
use tokio::sync::mpsc;
use yovanelum::{broadcast, named, watch};

/// A chat, as tokio's examples have it, on two workers. A connection greets its client and then
/// subscribes: what others say in between is lost.
pub fn chat() {
    on_two_workers(serve());
}

/// On one thread no other task is polled between the greeting and the subscription.
pub fn chat_on_one_thread() {
    on_one_thread(serve());
}

async fn serve() {
    let listener = TcpListener::bind("127.0.0.1:0").await.unwrap();
    let at = listener.local_addr().unwrap();
    let bus = broadcast::Sender::<String>::new(16);
    let (stop, stopped) = watch::channel(false);
    let (alive, mut gone) = mpsc::channel::<()>(1);
    let server = tokio::spawn(named("server", accept(listener, bus, stopped, alive)));
    let (mut ann, mut bob) = (connected(at).await, connected(at).await);
    bob.get_mut().write_all(b"hi\n").await.unwrap();
    assert_eq!(line(&mut ann).await, "hi\n");
    stop.send(true).unwrap();
    ended(server).await;
    let _ = gone.recv().await;
}

async fn accept(
    listener: TcpListener,
    bus: broadcast::Sender<String>,
    mut stopped: watch::Receiver<bool>,
    alive: mpsc::Sender<()>,
) {
    let mut count = 0;
    loop {
        let socket = tokio::select! {
            accepted = listener.accept() => accepted.unwrap().0,
            _ = stopped.changed() => return,
        };
        count += 1;
        let (bus, stopped, alive) = (bus.clone(), stopped.clone(), alive.clone());
        let connection = connection(socket, bus, stopped, alive);
        tokio::spawn(named(&format!("connection {count}"), connection));
    }
}

async fn connection(
    socket: TcpStream,
    bus: broadcast::Sender<String>,
    mut stopped: watch::Receiver<bool>,
    _alive: mpsc::Sender<()>,
) {
    let (read, mut write) = socket.into_split();
    write.write_all(b"hello\n").await.unwrap();
    let mut said = bus.subscribe();
    let mut lines = BufReader::new(read).lines();
    loop {
        tokio::select! {
            line = lines.next_line() => match line {
                Ok(Some(line)) => drop(bus.send(line)),
                _ => return,
            },
            said = said.recv() => match said {
                Ok(line) => write.write_all(format!("{line}\n").as_bytes()).await.unwrap(),
                Err(_) => return,
            },
            _ = stopped.changed() => return,
        }
    }
}

async fn connected(at: net::SocketAddr) -> BufReader<TcpStream> {
    let mut client = BufReader::new(TcpStream::connect(at).await.unwrap());
    assert_eq!(line(&mut client).await, "hello\n");
    client
}

async fn line(client: &mut BufReader<TcpStream>) -> String {
    let mut line = String::new();
    client.read_line(&mut line).await.unwrap();
    line
}

/// A server acknowledges a client, and then subscribes for it. The client has something published
/// as soon as it is acknowledged.
pub fn acknowledged_too_early() {
    let listener = net::TcpListener::bind("127.0.0.1:0").unwrap();
    let at = listener.local_addr().unwrap();
    let bus = broadcast::Sender::new(8);
    let of_server = bus.clone();
    let server = spawn("server", move || {
        let (mut stream, _) = listener.accept().unwrap();
        stream.write_all(b"+").unwrap();
        let mut published = of_server.subscribe();
        drop(of_server);
        published.blocking_recv() == Ok(7)
    });
    let client = spawn("client", move || {
        let mut stream = net::TcpStream::connect(at).unwrap();
        let mut byte = [0];
        stream.read_exact(&mut byte).unwrap();
        work(1500);
        let _ = bus.send(7);
    });
    joined(client);
    assert!(joined(server), "what was published is lost");
}
