//! An account with a handle.

use std::thread::{Builder, JoinHandle};

use tokio::sync::{broadcast, mpsc, watch};

pub enum Order {
    Deposit(u8),
    Stop,
}

/// Sends orders to an account, and watches what is in it.
pub struct AccountHandle {
    orders: mpsc::Sender<Order>,
    pub balance: watch::Receiver<u8>,
}

impl AccountHandle {
    pub fn open() -> Self {
        let (orders, mut inbox) = mpsc::channel(8);
        let (balance, watched) = watch::channel(0_u8);
        tokio::spawn(async move {
            while let Some(Order::Deposit(amount)) = inbox.recv().await {
                let now = *balance.borrow();
                balance
                    .send(now.checked_add(amount).expect("the account is full"))
                    .unwrap();
            }
        });
        AccountHandle {
            orders,
            balance: watched,
        }
    }

    pub async fn deposit(&self, amount: u8) {
        let _ = self.orders.send(Order::Deposit(amount)).await;
    }

    pub async fn stop(&self) {
        let _ = self.orders.send(Order::Stop).await;
    }
}

/// A price, which is raised by who reads it.
pub fn raise(price: &watch::Sender<u32>, reader: &watch::Receiver<u32>) {
    let now = reader.borrow();
    price.send(*now + 1).unwrap();
}

/// One of two players: each waits for the other's ball before it plays its own.
pub fn play(
    name: &str,
    mut from: broadcast::Receiver<u32>,
    to: broadcast::Sender<u32>,
) -> JoinHandle<u32> {
    let player = Builder::new().name(name.to_string());
    player
        .spawn(move || {
            let ball = from.blocking_recv().unwrap_or(0);
            let _ = to.send(ball + 1);
            ball
        })
        .unwrap()
}
