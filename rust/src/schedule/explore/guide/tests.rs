//! What a guide prefers, for each condition.

use super::*;
use crate::channels::channel::KnownReceiver;
use crate::schedule::explore::fairness::PassedOver;
use std::cell::RefCell;

thread_local! {
    static LAGS: RefCell<Vec<u32>> = const { RefCell::new(Vec::new()) };
    static GONE: RefCell<Vec<u32>> = const { RefCell::new(Vec::new()) };
}

/// `orders` is a broadcast with the receivers 1, which is `audit`, and 3, and `config` is a watch
/// with receiver 1.
fn look() -> Vec<Known> {
    let receiver = |handle: u32, name: Option<&str>| KnownReceiver {
        handle,
        name: name.map(str::to_string),
        lags: LAGS.with_borrow(|lags| lags.contains(&handle)),
    };
    let alive = |it: &KnownReceiver| GONE.with_borrow(|gone| !gone.contains(&it.handle));
    let of_orders = [receiver(1, Some("audit")), receiver(3, None)];
    let of_orders = of_orders.into_iter().filter(alive).collect();
    let channel = |number, name: &str, is_watch, receivers| Known {
        number,
        name: Some(name.to_string()),
        is_watch,
        receivers,
    };
    vec![
        channel(0, "orders", false, of_orders),
        channel(1, "config", true, vec![receiver(1, None)]),
    ]
}

/// A guide that is never led by chance, where no receiver lags and none is gone.
fn guide(condition: &str) -> Guide {
    // WebAssembly runs all tests on one thread.
    LAGS.take();
    GONE.take();
    Guide::to(condition.parse().unwrap(), 4, 20, look)
}

fn standing(who: &str, what: &str) -> Candidate {
    let what = match what.split_once(' ') {
        None if what == "time" => What::Time {
            ready: String::new(),
        },
        None => What::Poll,
        Some((word, on)) => {
            let (channel, handle) = on.split_once('.').unwrap();
            What::Call {
                word: word.to_string(),
                channel: channel.parse().unwrap(),
                handle: handle.parse().unwrap(),
            }
        }
    };
    Candidate {
        who: who.into(),
        what,
        number: 0,
        passed_over: PassedOver::default(),
    }
}

/// Asserts that the first of these is let go, whatever the order in which they stand.
fn assert_first(guide: &mut Guide, standing_there: &[(&str, &str)]) {
    for first in 0..standing_there.len() {
        let mut all: Vec<_> = standing_there
            .iter()
            .map(|(who, what)| standing(who, what))
            .collect();
        all.rotate_left(first);
        let chosen = guide.choose(&all);
        let wanted = (standing_there.len() - first) % standing_there.len();
        assert_eq!(chosen, wanted, "{standing_there:?}");
    }
}

#[test]
fn senders_on_the_channel_of_a_receiver_go_and_the_receiver_is_held() {
    for condition in [
        "lagging audit",
        "unread audit 2",
        "lagging 0 1",
        "lagging orders.receiver1",
        "lagging channel0.receiver1",
    ] {
        let others = [
            ("shop", "send 0.0"),
            ("clerk", "send 1.0"),
            ("reader", "recv 0.3"),
            ("main", "time"),
            ("auditor", "recv 0.1"),
        ];
        assert_first(&mut guide(condition), &others);
        for held in ["recv 0.1", "try-recv 0.1", "drop 0.1"] {
            assert_first(
                &mut guide(condition),
                &[("reader", "recv 0.3"), ("auditor", held)],
            );
        }
    }
}

#[test]
fn a_receiver_without_a_name_is_that_of_the_caller_who_reads_by_it() {
    let mut guide = guide("lagging auditor");
    // It has to begin, since there is nothing that could lag.
    assert_first(
        &mut guide,
        &[("auditor", "poll"), ("shop", "poll"), ("main", "time")],
    );
    assert_first(
        &mut guide,
        &[("auditor", "subscribe 0.0"), ("shop", "send 0.0")],
    );
    guide.choose(&[standing("auditor", "recv 0.3")]);
    assert_first(&mut guide, &[("shop", "send 0.0"), ("auditor", "recv 0.3")]);
    assert_first(&mut guide, &[("shop", "poll"), ("auditor", "poll")]);
    assert_first(
        &mut guide,
        &[("shop", "poll"), ("stranger", "poll"), ("auditor", "poll")],
    );
}

#[test]
fn a_version_that_is_sent_is_not_marked_as_seen() {
    let standing = [
        ("admin", "send 1.0"),
        ("reader", "changed 1.1"),
        ("shop", "send 0.0"),
    ];
    assert_first(&mut guide("unseen config.receiver1"), &standing);
    assert_first(&mut guide("version config 3"), &standing);
    let standing = [("reader", "mark-changed 1.1"), ("reader 2", "update 1.1")];
    assert_first(&mut guide("unseen 1 1"), &standing);
}

#[test]
fn a_queue_is_filled_and_nobody_takes_from_it() {
    let standing = [
        ("shop", "send 0.0"),
        ("reader", "recv 0.3"),
        ("clerk", "send 1.0"),
    ];
    assert_first(&mut guide("queue orders 2"), &standing);
    let standing = [("clerk", "send 1.0"), ("reader", "recv 0.3")];
    assert_first(&mut guide("queue orders 2"), &standing);
}

#[test]
fn senders_are_dropped_and_not_cloned_until_a_channel_is_closed() {
    let standing = [
        ("shop", "drop 0.0"),
        ("reader", "drop 0.3"),
        ("main", "clone-sender 0.0"),
    ];
    assert_first(&mut guide("closed orders"), &standing);
    assert_first(
        &mut guide("closed 0"),
        &[("reader", "drop 0.3"), ("main", "upgrade 0.4")],
    );
}

#[test]
fn calls_of_an_actor_and_on_a_channel_go_first() {
    assert_first(
        &mut guide("actor shop"),
        &[("shop", "poll"), ("clerk", "send 0.0")],
    );
    assert_first(
        &mut guide("channel config"),
        &[("clerk", "borrow 1.1"), ("shop", "send 0.0")],
    );
}

#[test]
fn a_receiver_that_lags_is_told_at_once() {
    let mut guide = guide("reply lagged");
    let standing = [
        ("shop", "send 0.0"),
        ("auditor", "recv 0.1"),
        ("reader", "recv 0.3"),
    ];
    assert_first(&mut guide, &standing);
    LAGS.set(vec![3]);
    let standing = [
        ("reader", "recv 0.3"),
        ("shop", "send 0.0"),
        ("auditor", "recv 0.1"),
    ];
    assert_first(&mut guide, &standing);
}

#[test]
fn a_sender_comes_to_its_send_and_stands_there_until_no_receiver_is_left() {
    let mut guide = guide("reply no-receivers");
    guide.choose(&[standing("shop", "send 0.0")]);
    let look = [
        ("shop", "receiver-count 0.0"),
        ("reader", "drop 0.3"),
        ("auditor", "recv 0.1"),
    ];
    assert_first(&mut guide, &look);
    assert_first(&mut guide, &[("reader", "drop 0.3"), ("shop", "send 0.0")]);
    GONE.set(vec![1, 3]);
    assert_first(&mut guide, &[("shop", "send 0.0"), ("main", "poll")]);
}

#[test]
fn a_seed_says_which_choices_are_made_by_chance() {
    let standing = [
        ("shop", "send 0.0"),
        ("reader", "recv 0.3"),
        ("auditor", "recv 0.1"),
    ];
    let standing = standing.map(|(who, what)| self::standing(who, what));
    let of = |seed| {
        let mut guide = Guide::to("lagging audit".parse().unwrap(), seed, 20, look);
        (0..60).map(|_| guide.choose(&standing)).collect::<Vec<_>>()
    };
    let others = |seed| of(seed).iter().filter(|chosen| **chosen != 0).count();
    assert_eq!((others(8), others(9)), (0, 0));
    assert!((1..20).contains(&others(11)), "{}", others(11));
    let at_first = of(10);
    assert!(
        at_first[20..].iter().all(|chosen| *chosen == 0),
        "{at_first:?}"
    );
    assert_eq!(of(11), of(11));
    assert_ne!(of(11), of(15));
}

#[test]
fn of_those_who_do_as_well_one_by_chance_goes_or_the_same_one() {
    let standing = ["shop", "clerk", "main"].map(|who| self::standing(who, "poll"));
    let of = |seed| {
        let mut guide = Guide::to("lagging audit".parse().unwrap(), seed, 20, look);
        (0..40).map(|_| guide.choose(&standing)).collect::<Vec<_>>()
    };
    let has_all = |chosen: &[usize]| (0..3).all(|index| chosen.contains(&index));
    assert!(has_all(&of(4)));
    let favourites = [1, 5, 9, 13, 17, 21, 25].map(|seed| {
        let chosen = of(seed);
        assert!(chosen.iter().all(|index| *index == chosen[0]), "{chosen:?}");
        chosen[0]
    });
    assert!(has_all(&favourites), "{favourites:?}");
}
