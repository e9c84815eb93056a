use std::time::Duration;

use backend::actor::{self, AccountHandle};
use tokio::sync::{broadcast, watch};
use yovanelum::{Recorder, name};

#[tokio::test]
async fn two_deposits_are_added() {
    let recorder = Recorder::for_test("two_deposits_are_added");
    let mut account = AccountHandle::open();
    name!(recorder, &account.balance, "balance");
    account.deposit(200).await;
    account.balance.changed().await.unwrap();
    assert_eq!(*account.balance.borrow(), 200);
    account.deposit(100).await;
    account.balance.changed().await.unwrap();
    account.stop().await;
}

#[test]
fn a_price_is_raised() {
    let recorder = Recorder::for_test("a_price_is_raised").watchdog(Duration::from_secs(3));
    let (price, reader) = watch::channel(10);
    name!(recorder, &price, "price");
    actor::raise(&price, &reader);
    assert_eq!(*reader.borrow(), 11);
}

#[test]
fn the_ball_comes_back() {
    let recorder = Recorder::for_test("the_ball_comes_back").watchdog(Duration::from_secs(3));
    let (to_left, left) = broadcast::channel(4);
    let (to_right, right) = broadcast::channel(4);
    name!(recorder, &to_left, "to left");
    name!(recorder, &to_right, "to right");
    let players = [
        actor::play("left", left, to_right),
        actor::play("right", right, to_left),
    ];
    for player in players {
        assert!(player.join().unwrap() > 0);
    }
}
