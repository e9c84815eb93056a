//! Tests whose calls come in another order: one that is edited before its replay, and one that a search makes fail. A comment at the end of a line is how
//! `orders.py` finds the line's number.

use shop::start;
use std::env;
use yovanelum::{Recorder, block_on, broadcast, watch};

#[test]
fn each_bid_is_there() {
    let recorder = Recorder::for_test("each_bid_is_there");
    let (bids, mut auction) = broadcast::channel(2);
    recorder
        .name(&bids, "bids")
        .name(&auction, "auction")
        .show(&bids, |bid| format!("{bid} EUR"));
    // The replay is of a test that was edited since.
    let most = if env::var_os("SHOP_FEW").is_some() {
        1
    } else {
        3
    };
    for bid in 1..=most {
        bids.send(bid).unwrap(); // a bid is sent
    }
    let first = auction.try_recv(); // the auction asks
    assert_eq!(first, Ok(3)); // the bids are compared
}

/// A reader applies what it sees, and then marks it as seen. What comes in between is never applied.
#[test]
fn the_last_limit_is_applied() {
    let recorder = Recorder::for_test("the_last_limit_is_applied");
    let (limits, mut seen) = watch::channel(0);
    recorder.name(&limits, "limits").name(&seen, "seen");
    let reader = start("reader", move || {
        let mut applied = 0;
        block_on(async {
            while seen.changed().await.is_ok() {
                applied = *seen.borrow(); // what came is applied
                seen.mark_unchanged(); // what came is marked
            }
        });
        applied
    });
    let admin = start("admin", move || {
        for limit in 1..=3 {
            limits.send(limit).unwrap(); // a new limit is sent
        }
    });
    admin.join().unwrap();
    assert_eq!(reader.join().unwrap(), 3); // the last limit is compared
}
